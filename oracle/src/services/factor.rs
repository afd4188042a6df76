//! The Cholesky factor, nine wide, against the published `Cholesky::new`.

use super::Service;
use crate::ffi::Square;
use crate::random::{pattern, Random};
use crate::system;
use crate::tally::{hex, Tally};
use crate::vectors::Vectors;
use crate::{bench, ffi};
use drifters_core::math::{Cholesky, Matrix};
use std::hint::black_box;

pub const SERVICE: Service = Service {
    name: "factor",
    count: 1_000_000,
    compare,
    bench: Some(time),
};

/// The number of a refused pivot.
pub const REFUSED: u8 = 10;

/// The Rust's factor, where it gives one.
pub fn reference(a: &Square) -> Option<Square> {
    Cholesky::new(&Matrix::from_rows(*a)).map(|c| c.lower.data)
}

/// The bits of a matrix, row by row.
pub fn raw(a: &Square) -> impl Iterator<Item = u64> + '_ {
    a.iter().flatten().map(|x| x.to_bits())
}

/// The patterns of a matrix, row by row, one for every NaN.
pub fn patterns(a: &Square) -> impl Iterator<Item = u64> + '_ {
    a.iter().flatten().map(|&x| pattern(x))
}

fn compare(tally: &mut Tally, random: &mut Random, count: u64) {
    let mut accepted = 0;
    // What the lent matrix holds before a call; a refusal must leave each of its bits.
    let mut lent = system::anything(random);
    for place in 0..count {
        if place % 64 == 0 {
            lent = system::anything(random);
        }
        let a = system::matrix(random);
        let mut ours = lent;
        let number = ffi::factor(&a, &mut ours);
        let theirs = reference(&a);
        let same = match &theirs {
            Some(l) => number == 0 && patterns(l).eq(patterns(&ours)),
            None => number == REFUSED && raw(&lent).eq(raw(&ours)),
        };
        accepted += u64::from(theirs.is_some());
        tally.judge(same, || {
            format!(
                "of {}: our number {number}, ours {}, Rust's {}",
                hex(raw(&a)),
                hex(patterns(&ours)),
                theirs.map_or("none".to_string(), |l| hex(patterns(&l)))
            )
        });
    }
    tally.note(format!("{accepted} accepted"));
}

fn time(random: &mut Random) {
    let systems: Vec<_> = (0..128)
        .map(|_| {
            let b: [f64; 9] = std::array::from_fn(|_| random.unit());
            (system::definite(random), b)
        })
        .collect();
    let rust: Vec<_> = systems
        .iter()
        .map(|(a, b)| (Matrix::from_rows(*a), Matrix::<9, 1>::from_column(*b)))
        .collect();
    let mut l = [[0.0; 9]; 9];
    bench::row(
        "factor",
        9,
        systems.len(),
        || {
            for (a, _) in &systems {
                black_box(ffi::factor(black_box(a), &mut l));
                black_box(&l);
            }
        },
        || {
            for (a, _) in &rust {
                black_box(Cholesky::new(black_box(a)));
            }
        },
    );
    bench::row(
        "factor+solve",
        9,
        systems.len(),
        || {
            for (a, b) in &systems {
                black_box(ffi::factor(black_box(a), &mut l));
                black_box(ffi::solve(&l, black_box(b)));
            }
        },
        || {
            for (a, b) in &rust {
                black_box(Cholesky::new(black_box(a)).map(|c| c.solve(black_box(b))));
            }
        },
    );
}

/// A matrix of 81, the number (0 or 10), the factor of 81 (zeros where refused).
pub fn vectors(random: &mut Random) -> Vectors {
    let mut numbers = Vec::new();
    let mut identity = [[0.0; 9]; 9];
    (0..9).for_each(|i| identity[i][i] = 1.0);
    let mut zero_pivot = identity;
    zero_pivot[0][0] = 0.0;
    let mut nan_pivot = identity;
    nan_pivot[4][4] = f64::NAN;
    let mut put = |a: &Square| {
        let l = reference(a);
        numbers.extend(raw(a));
        numbers.push(u64::from(if l.is_some() { 0 } else { REFUSED }));
        numbers.extend(patterns(&l.unwrap_or([[0.0; 9]; 9])));
    };
    [identity, zero_pivot, nan_pivot].iter().for_each(&mut put);
    // More that are accepted than not, of all kinds.
    let (mut good, mut bad) = (20, 7);
    while good + bad > 0 {
        let a = system::matrix(random);
        let left = match reference(&a) {
            Some(_) => &mut good,
            None => &mut bad,
        };
        if *left > 0 {
            *left -= 1;
            put(&a);
        }
    }
    Vectors::alike(163, 82, numbers)
}
