//! The root, against the hardware's through `f64::sqrt`.

use super::Service;
use crate::random::{pattern, Random, SIGN, SPECIAL};
use crate::tally::{hex, Tally};
use crate::vectors::Vectors;
use crate::{bench, ffi};
use std::hint::black_box;

pub const SERVICE: Service = Service {
    name: "root",
    count: 10_000_000,
    compare,
    bench: Some(time),
};

/// The fraction bits of a pattern.
const FRACTION: u64 = (1 << 52) - 1;

/// A float whose root lies at, or next to, a double or the middle between two.
fn near_square(random: &mut Random) -> f64 {
    // A whole number of 54 bits; odd ones are middles of two doubles.
    let m = u128::from((1 << 53) | random.bits() >> 11);
    let m = if random.below(2) == 0 { m & !1 } else { m | 1 };
    let square = m * m;
    let drop = 128 - square.leading_zeros() - 53;
    let top = (square >> drop) as u64;
    let top = top.wrapping_add_signed(i64::from(random.between(-2, 2)));
    // An even power keeps the root's digits; now and then an odd one, which does not.
    let even = 2 * random.between(-564, 458) + drop as i32;
    let power = even + i32::from(random.below(8) == 0);
    scaled(top, power)
}

/// m times 2 to the given power, for any m of 53 bits.
fn scaled(m: u64, power: i32) -> f64 {
    let biased = power + 1075;
    if m >> 53 != 0 || !(1..=2046).contains(&biased) {
        return m as f64;
    }
    f64::from_bits((m & FRACTION) | (biased as u64) << 52)
}

/// A subnormal next to a square: 2^-1074 is the square of 2^-537.
fn near_square_subnormal(random: &mut Random) -> f64 {
    let r = random.bits() >> random.between(38, 62);
    let n = (r * r).wrapping_add_signed(i64::from(random.between(-1, 1)));
    f64::from_bits(n & FRACTION)
}

/// The input of a place: each exponent and sign comes round once in 16,384.
fn input(random: &mut Random, place: u64) -> f64 {
    if place.is_multiple_of(4) {
        let sign_and_exponent = (place / 4) % 4096;
        let fraction = match random.below(4) {
            0 => random.below(4),
            1 => FRACTION - random.below(4),
            2 => 1 << random.below(52),
            _ => random.bits() & FRACTION,
        };
        return f64::from_bits(sign_and_exponent << 52 | fraction);
    }
    match random.below(8) {
        0..=2 => near_square(random),
        3 => near_square_subnormal(random),
        4 => f64::from_bits(random.subnormal()),
        5 => random.float(),
        6 => f64::from_bits(random.bits()),
        _ => f64::from_bits(random.bits() & !SIGN),
    }
}

fn compare(tally: &mut Tally, random: &mut Random, count: u64) {
    for place in 0..count {
        let x = match SPECIAL.get(place as usize) {
            Some(&special) => f64::from_bits(special),
            None => input(random, place),
        };
        let (ours, theirs) = (pattern(ffi::sqrt(x)), pattern(x.sqrt()));
        tally.judge(ours == theirs, || {
            format!(
                "of {}: ours {}, Rust's {}",
                hex([x.to_bits()]),
                hex([ours]),
                hex([theirs])
            )
        });
    }
}

/// The hardware's root as a call, since ours is one.
#[inline(never)]
fn hardware(x: f64) -> f64 {
    x.sqrt()
}

fn time(random: &mut Random) {
    let any = |random: &mut Random| f64::from_bits(random.below(0x7FF0_0000_0000_0000));
    let near_one = |random: &mut Random| 2.5 + 1.5 * random.unit();
    let mut row = |name, make: fn(&mut Random) -> f64| {
        let xs: Vec<f64> = (0..1024).map(|_| make(random)).collect();
        let all = |f: fn(f64) -> f64| {
            for &x in &xs {
                black_box(f(x));
            }
        };
        bench::row(name, 1, xs.len(), || all(ffi::sqrt), || all(hardware));
    };
    row("root", any);
    row("root of 1..4", near_one);
}

/// A pattern and the pattern of its root, 7FF8000000000000 for every NaN.
pub fn vectors(random: &mut Random) -> Vectors {
    let specials = SPECIAL.into_iter().map(f64::from_bits);
    let others: Vec<f64> = (0..2000)
        .map(|k| {
            let place = (random.bits() & !3) | (k % 4);
            input(random, place)
        })
        .collect();
    Vectors::alike(
        2,
        1,
        specials
            .chain(others)
            .flat_map(|x| [x.to_bits(), pattern(x.sqrt())])
            .collect(),
    )
}
