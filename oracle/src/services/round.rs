//! The round called by itself, against `robust::step`.
//!
//! A residual is handed over as its pattern, since a NaN's sign has its place in the order.

use super::Service;
use crate::ffi::{Column, Rows};
use crate::numbers::Numbers;
use crate::random::{exp2, pattern, Random};
use crate::sky;
use crate::tally::{hex, Tally};
use crate::vectors::{of_each, raw, Vectors};
use crate::{bench, ffi};
use drifters_gnss::robust::{step, Row};
use std::hint::black_box;

pub const SERVICE: Service = Service {
    name: "round",
    count: 1_000_000,
    compare,
    bench: Some(time),
};

/// How many rows a call takes.
const MOST: usize = 64;

/// A call's input.
pub struct Input {
    pub rows: Rows,
    pub unknowns: usize,
    pub huber: f64,
}

/// The rows of a sky: unit vectors, clocks, residuals with outliers, sigmas.
fn usual(random: &mut Random, count: usize) -> Input {
    let clocks = 1 + random.place(6);
    let axis = sky::direction(random);
    let spread = match random.below(4) {
        0 => exp2(random.between(-40, -2)),
        _ => 1.0,
    };
    let offset = random.unit() * exp2(random.between(-4, 20));
    let mut rows = Rows {
        count,
        ..Rows::default()
    };
    for k in 0..count {
        rows.units.extend(sky::near(random, axis, spread));
        // Each clock has a row before any has two.
        let clock = if k < clocks { k } else { random.place(clocks) };
        rows.clocks.push(3 + clock);
        let far = if random.below(10) == 0 { 40.0 } else { 1.0 };
        rows.residuals
            .push((offset + 5.0 * far * random.unit()).to_bits());
        rows.sigmas.push(0.01 + 20.0 * random.unit().abs());
    }
    Input {
        rows,
        unknowns: 3 + clocks,
        huber: random.pick(&[1.0, 1.5, 0.1]),
    }
}

/// Other clock indices and unknowns, up to those that are refused.
fn turn_places(random: &mut Random, input: &mut Input) {
    let clock = |random: &mut Random| match random.below(16) {
        0 => random.pick(&[9, usize::MAX, usize::MAX - 1, 1 << 32]),
        _ => random.place(9),
    };
    if random.below(2) == 0 {
        input.unknowns = match random.below(16) {
            0 => random.pick(&[10, 11, usize::MAX, 1 << 32]),
            _ => random.place(10),
        };
    }
    if let (Some(k), true) = (input.rows.clocks.len().checked_sub(1), random.below(2) == 0) {
        for _ in 0..1 + random.place(3) {
            input.rows.clocks[random.place(k + 1)] = clock(random);
        }
    }
}

/// Odd floats: in a few places, in a column, in one residual for all, or in every place.
fn turn_floats(random: &mut Random, input: &mut Input) {
    let rows = &mut input.rows;
    let n = rows.sigmas.len();
    let huber = |random: &mut Random| match random.below(4) {
        0 => random.float(),
        1 => f64::from_bits(random.pick(&crate::random::SPECIAL)),
        _ => random.pick(&[0.0, -0.0, -1.0, f64::NAN, f64::INFINITY, 5e-324, 1e-9]),
    };
    if n == 0 {
        input.huber = huber(random);
        return;
    }
    match random.below(10) {
        0 => rows.units[random.place(3 * n)] = random.float(),
        1 | 2 => {
            for _ in 0..1 + random.place(4) {
                rows.residuals[random.place(n)] = random.pattern();
            }
        }
        3 => rows.sigmas[random.place(n)] = random.float(),
        4 => input.huber = huber(random),
        5 => rows.residuals = super::centre::list(random, n),
        6 => {
            let by = exp2(random.between(-540, 520));
            rows.units.iter_mut().for_each(|u| *u *= by);
        }
        7 => {
            let by = exp2(random.between(-540, 520));
            rows.sigmas.iter_mut().for_each(|s| *s *= by);
        }
        8 => {
            let by = exp2(random.between(-1000, 1000));
            let scaled = |r: u64| (f64::from_bits(r) * by).to_bits();
            rows.residuals.iter_mut().for_each(|r| *r = scaled(*r));
        }
        _ => {
            rows.units.iter_mut().for_each(|u| *u = random.float());
            rows.residuals
                .iter_mut()
                .for_each(|r| *r = random.pattern());
            rows.sigmas.iter_mut().for_each(|s| *s = random.float());
            input.huber = huber(random);
        }
    }
}

/// A column that is shorter than the rows need, or columns that are longer.
fn turn_lengths(random: &mut Random, input: &mut Input) {
    let rows = &mut input.rows;
    match random.below(8) {
        0 => drop(rows.units.pop()),
        1 => drop(rows.clocks.pop()),
        2 => drop(rows.residuals.pop()),
        3 => drop(rows.sigmas.pop()),
        4 => rows.count += 1 + random.place(3),
        // So many rows that three times as many wrap.
        5 => rows.count = random.pick(&[usize::MAX, usize::MAX / 3 + 1, MOST + 1]),
        _ => {
            // Beyond the count nothing may be read.
            rows.units.extend([f64::NAN; 5]);
            rows.clocks.extend([usize::MAX; 2]);
            rows.residuals.extend([u64::MAX; 3]);
            rows.sigmas.extend([f64::NAN; 4]);
        }
    }
}

fn input(random: &mut Random) -> Input {
    let count = match random.below(8) {
        0 => random.place(MOST + 2),
        1 => random.pick(&[0, 1, 2, 3, MOST - 1, MOST, MOST + 1]),
        _ => 6 + random.place(20),
    };
    let mut out = usual(random, count);
    if random.below(3) == 0 {
        turn_places(random, &mut out);
    }
    for _ in 0..random.below(3) {
        turn_floats(random, &mut out);
    }
    if random.below(24) == 0 {
        turn_lengths(random, &mut out);
    }
    out
}

/// The rows as the Rust takes them.
fn rust_rows(rows: &Rows) -> Vec<Row> {
    (0..rows.count)
        .map(|k| Row {
            unit: [
                rows.units[3 * k],
                rows.units[3 * k + 1],
                rows.units[3 * k + 2],
            ],
            clock: rows.clocks[k] as usize,
            residual: f64::from_bits(rows.residuals[k]),
            sigma: rows.sigmas[k],
        })
        .collect()
}

/// The Rust's step, and the numbers that docs/SCOPE.md adds: there the Rust may panic and is not asked.
pub fn reference(input: &Input) -> Result<Column, u8> {
    let rows = &input.rows;
    if rows.count > MOST || !rows.whole() {
        return Err(2);
    }
    if input.unknowns > 9 || rows.clocks[..rows.count].iter().any(|&c| c > 8) {
        return Err(4);
    }
    step(&rust_rows(rows), input.unknowns, input.huber).ok_or(10)
}

/// The columns of an input in hexadecimal.
fn columns(input: &Input) -> String {
    let rows = &input.rows;
    let bits = |xs: &[f64]| hex(xs.iter().map(|x| x.to_bits()));
    format!(
        "{} rows, {} unknowns, huber {}, units {}, clocks {:?}, residuals {}, sigmas {}",
        rows.count,
        input.unknowns,
        bits(&[input.huber]),
        bits(&rows.units),
        rows.clocks,
        hex(rows.residuals.iter().copied()),
        bits(&rows.sigmas)
    )
}

fn compare(tally: &mut Tally, random: &mut Random, count: u64) {
    let mut numbers = Numbers::default();
    let mut finite = 0u64;
    for _ in 0..count {
        let input = input(random);
        let lent: Column = std::array::from_fn(|_| random.float());
        let mut ours = lent;
        let number = ffi::round(&input.rows, input.unknowns, input.huber, &mut ours);
        let theirs = reference(&input);
        let same = match &theirs {
            Ok(dx) => number == 0 && ours.map(pattern) == dx.map(pattern),
            Err(n) => number == *n && ours.map(f64::to_bits) == lent.map(f64::to_bits),
        };
        numbers.count(theirs.err().unwrap_or(0));
        finite += u64::from(theirs.is_ok_and(|dx| dx.iter().all(|x| x.is_finite())));
        tally.judge(same, || {
            format!(
                "of {}: our number {number}, ours {}, Rust's {}",
                columns(&input),
                hex(ours.map(f64::to_bits)),
                theirs.map_or_else(|n| n.to_string(), |dx| hex(dx.map(f64::to_bits)))
            )
        });
    }
    tally.note(format!("{numbers}; {finite} of a finite step"));
}

/// A usual input that the Rust accepts.
fn accepted(random: &mut Random, count: usize) -> Input {
    loop {
        let input = usual(random, count);
        if reference(&input).is_ok() {
            return input;
        }
    }
}

fn time(random: &mut Random) {
    for n in [12, 30, 64] {
        let inputs: Vec<Input> = (0..1536 / n).map(|_| accepted(random, n)).collect();
        let rust: Vec<(Vec<Row>, usize, f64)> = inputs
            .iter()
            .map(|i| (rust_rows(&i.rows), i.unknowns, i.huber))
            .collect();
        let mut dx = [0.0; 9];
        bench::row(
            "round",
            n,
            inputs.len(),
            || {
                for i in &inputs {
                    black_box(ffi::round(black_box(&i.rows), i.unknowns, i.huber, &mut dx));
                    black_box(&dx);
                }
            },
            || {
                for (rows, unknowns, huber) in &rust {
                    black_box(step(black_box(rows), *unknowns, *huber));
                }
            },
        );
    }
}

/// Rows, unknowns, huber; of each row, of 64 at most, unit, clock, residual, sigma; number, step 9 (zeros where refused).
pub fn vectors(random: &mut Random) -> Vectors {
    let wanted = [(0, 24), (2, 2), (4, 4), (10, 6)];
    let next = || {
        let input = input(random);
        let rows = &input.rows;
        // A case has room for 64 rows; more of them are refused with or without their floats.
        if !rows.whole() || rows.count > MOST + 1 {
            return None;
        }
        let answer = reference(&input);
        let number = answer.err().unwrap_or(0);
        let mut given = vec![rows.count as u64, input.unknowns as u64];
        given.push(input.huber.to_bits());
        for k in 0..rows.count.min(MOST) {
            given.extend(raw(&rows.units[3 * k..3 * k + 3]));
            given.extend([rows.clocks[k] as u64, rows.residuals[k]]);
            given.extend(raw(&rows.sigmas[k..k + 1]));
        }
        let mut stored = vec![u64::from(number)];
        stored.extend(answer.unwrap_or([0.0; 9]).map(pattern));
        Some((number, (given, stored)))
    };
    Vectors::of(of_each(&wanted, next))
}
