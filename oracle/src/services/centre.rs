//! Centre and scale of residuals, against `centre_scale`.
//!
//! A NaN keeps its place in the order by its sign and payload, so the residuals are patterns. The
//! deviations are magnitudes: a NaN among them is positive on both sides.

use super::Service;
use crate::random::{exp2, pattern, Random, SIGN};
use crate::tally::{hex, Tally};
use crate::vectors::Vectors;
use crate::{bench, ffi};
use drifters_gnss::robust::centre_scale;
use std::hint::black_box;

pub const SERVICE: Service = Service {
    name: "centre",
    count: 2_000_000,
    compare,
    bench: Some(time),
};

/// How many residuals a call takes.
const MOST: usize = 64;
/// The number of more.
const TOO_MANY: u8 = 2;

/// A NaN of any payload.
fn nan(random: &mut Random, sign: u64) -> u64 {
    0x7FF0_0000_0000_0000 | 1 << random.below(52) | random.bits() >> 12 | sign
}

/// A list of so many residuals.
pub fn list(random: &mut Random, length: usize) -> Vec<u64> {
    let kind = random.below(8);
    let scale = exp2(random.between(-6, 20));
    let offset = random.unit() * exp2(random.between(0, 30));
    let odd = 1 + random.below(8);
    let sign = random.bits() & SIGN;
    let one = |random: &mut Random| match kind {
        // As a round has them, with outliers.
        0 | 1 => {
            let far = if random.below(10) == 0 { 100.0 } else { 1.0 };
            (offset + scale * far * random.unit()).to_bits()
        }
        // Ties, and zeros of both signs.
        2 => (f64::from(random.between(-2, 2)) * random.unit().signum()).to_bits(),
        // NaNs of one sign or of both, infinities and zeros among ordinary ones.
        3 | 4 if random.below(8) < odd => match random.below(4) {
            0 | 1 if kind == 3 => nan(random, sign),
            0 | 1 => {
                let sign = random.bits() & SIGN;
                nan(random, sign)
            }
            2 => f64::INFINITY.to_bits() | (random.bits() & SIGN),
            _ => random.bits() & SIGN,
        },
        3 | 4 => random.ordinary().to_bits(),
        // Differences that overflow.
        5 => (random.unit() * f64::MAX).to_bits(),
        6 => random.subnormal() | (random.bits() & SIGN),
        _ => random.pattern(),
    };
    (0..length).map(|_| one(random)).collect()
}

/// The Rust's centre and scale.
fn reference(residuals: &[u64]) -> [f64; 2] {
    let floats: Vec<f64> = residuals.iter().map(|&r| f64::from_bits(r)).collect();
    let (centre, scale) = centre_scale(&floats);
    [centre, scale]
}

fn compare(tally: &mut Tally, random: &mut Random, count: u64) {
    let mut nans = 0u64;
    for place in 0..count {
        let residuals = list(random, place as usize % (MOST + 3));
        let lent = [random.float(), random.float()];
        let mut ours = lent;
        let number = ffi::centre(&residuals, &mut ours);
        let (expected, same) = if residuals.len() > MOST {
            (lent, ours.map(f64::to_bits) == lent.map(f64::to_bits))
        } else {
            let theirs = reference(&residuals);
            (theirs, ours.map(pattern) == theirs.map(pattern))
        };
        let refused = if residuals.len() > MOST { TOO_MANY } else { 0 };
        nans += u64::from(expected[0].is_nan());
        tally.judge(number == refused && same, || {
            format!(
                "of {}: our number {number}, ours {}, Rust's {}",
                hex(residuals.iter().copied()),
                hex(ours.map(f64::to_bits)),
                hex(expected.map(f64::to_bits))
            )
        });
    }
    tally.note(format!("lengths 0 to 66, {nans} with a NaN for a centre"));
}

fn time(random: &mut Random) {
    for n in [12, 30, 64] {
        // So many that their order is not learnt by heart.
        let lists: Vec<Vec<u64>> = (0..6144 / n)
            .map(|_| (0..n).map(|_| (20.0 * random.unit()).to_bits()).collect())
            .collect();
        let floats: Vec<Vec<f64>> = lists
            .iter()
            .map(|l| l.iter().map(|&r| f64::from_bits(r)).collect())
            .collect();
        let mut out = [0.0; 2];
        bench::row(
            "centre",
            n,
            lists.len(),
            || {
                for l in &lists {
                    black_box(ffi::centre(black_box(l), &mut out));
                    black_box(&out);
                }
            },
            || {
                for l in &floats {
                    black_box(centre_scale(black_box(l)));
                }
            },
        );
    }
}

/// How many residuals, their patterns, number, centre, scale (zeros where refused).
pub fn vectors(random: &mut Random) -> Vectors {
    let lengths = [0, 1, 2, 3, 4, 5, MOST - 1, MOST, MOST + 1];
    let one = |k: usize| {
        let length = match lengths.get(k) {
            Some(&length) => length,
            None => random.place(MOST + 1),
        };
        let residuals = list(random, length);
        let (number, answer) = match length {
            0..=MOST => (0, reference(&residuals)),
            _ => (TOO_MANY, [0.0; 2]),
        };
        let given = [length as u64].into_iter().chain(residuals).collect();
        let [centre, scale] = answer.map(pattern);
        (given, vec![u64::from(number), centre, scale])
    };
    Vectors::of((0..40).map(one).collect())
}
