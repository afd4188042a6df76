//! The solution by a factor, nine wide, against the published `Cholesky::solve`.

use super::factor;
use super::Service;
use crate::ffi::{Column, Square};
use crate::random::{pattern, Random};
use crate::system;
use crate::tally::{hex, Tally};
use crate::vectors::Vectors;
use crate::{bench, ffi};
use drifters_core::math::{Cholesky, Matrix};
use std::hint::black_box;

pub const SERVICE: Service = Service {
    name: "solve",
    count: 1_000_000,
    compare,
    bench: Some(time),
};

/// The Rust's solution for any lower triangle, whether or not a factor.
pub fn reference(l: &Square, b: &Column) -> Column {
    let factor = Cholesky {
        lower: Matrix::from_rows(*l),
    };
    factor.solve(&Matrix::<9, 1>::from_column(*b)).to_column()
}

/// A triangle and a right side: mostly an accepted factor, else any matrix at all.
fn input(random: &mut Random) -> (Square, Column) {
    let l = match random.below(8) {
        0 => system::anything(random),
        1 => system::matrix(random),
        _ => loop {
            if let Some(mut l) = factor::reference(&system::matrix(random)) {
                // Above the diagonal nothing may be read.
                if random.below(2) == 0 {
                    let i = random.place(8);
                    l[i][i + 1 + random.place(8 - i)] = random.float();
                }
                break l;
            }
        },
    };
    (l, system::column(random))
}

/// The patterns of a column, one for every NaN.
fn patterns(x: &Column) -> impl Iterator<Item = u64> + '_ {
    x.iter().map(|&x| pattern(x))
}

fn compare(tally: &mut Tally, random: &mut Random, count: u64) {
    let mut finite = 0;
    for _ in 0..count {
        let (l, b) = input(random);
        let (ours, theirs) = (ffi::solve(&l, &b), reference(&l, &b));
        finite += u64::from(theirs.iter().all(|x| x.is_finite()));
        tally.judge(patterns(&ours).eq(patterns(&theirs)), || {
            format!(
                "of {} and {}: ours {}, Rust's {}",
                hex(factor::raw(&l)),
                hex(b.map(f64::to_bits)),
                hex(patterns(&ours)),
                hex(patterns(&theirs))
            )
        });
    }
    tally.note(format!("{finite} with a finite solution"));
}

fn time(random: &mut Random) {
    let systems: Vec<(Square, Column)> = (0..128)
        .map(|_| {
            let l = factor::reference(&system::definite(random)).expect("it is definite");
            (l, std::array::from_fn(|_| random.unit()))
        })
        .collect();
    let rust: Vec<_> = systems
        .iter()
        .map(|(l, b)| {
            let lower = Matrix::from_rows(*l);
            (Cholesky { lower }, Matrix::<9, 1>::from_column(*b))
        })
        .collect();
    bench::row(
        "solve",
        9,
        systems.len(),
        || {
            for (l, b) in &systems {
                black_box(ffi::solve(black_box(l), b));
            }
        },
        || {
            for (l, b) in &rust {
                black_box(black_box(l).solve(b));
            }
        },
    );
}

/// A factor of 81 (its lower triangle is read), a right side of 9, the solution of 9.
pub fn vectors(random: &mut Random) -> Vectors {
    let mut numbers = Vec::new();
    for _ in 0..30 {
        let (l, b) = input(random);
        numbers.extend(factor::raw(&l));
        numbers.extend(b.map(f64::to_bits));
        numbers.extend(patterns(&reference(&l, &b)));
    }
    Vectors::alike(99, 9, numbers)
}
