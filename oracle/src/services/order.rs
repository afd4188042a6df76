//! IEEE 754 totalOrder on patterns, against `f64::total_cmp`, and the pattern of a float.

use super::Service;
use crate::random::{pattern, Random, SIGN, SPECIAL};
use crate::tally::{hex, Tally};
use crate::vectors::Vectors;
use crate::{bench, ffi};
use std::hint::black_box;

pub const SERVICE: Service = Service {
    name: "order",
    count: 10_000_000,
    compare,
    bench: Some(time),
};

/// Two patterns: unrelated, equal, neighbours, of unlike signs, of like exponents, both NaNs.
fn pair(random: &mut Random) -> (u64, u64) {
    let a = random.pattern();
    let b = match random.below(8) {
        0 => a,
        1 => a ^ SIGN,
        2 => a.wrapping_add_signed(i64::from(random.between(-2, 2))),
        3 => (a ^ SIGN).wrapping_add_signed(i64::from(random.between(-2, 2))),
        4 => a ^ (1 << random.below(64)),
        5 => a ^ random.bits() >> 12,
        _ => random.pattern(),
    };
    if random.below(8) == 0 {
        let nan = 0x7FF8_0000_0000_0000;
        return (a | nan, b | nan);
    }
    (a, b)
}

/// The Rust's totalOrder: a before b, or equal.
fn reference(a: u64, b: u64) -> bool {
    f64::from_bits(a).total_cmp(&f64::from_bits(b)).is_le()
}

/// A pattern of one of the classes that 5.10 tells apart, in either sign: a zero, a subnormal, a normal number, an infinity, a signaling NaN, a quiet NaN.
fn of_class(random: &mut Random, class: u64) -> u64 {
    const INFINITY: u64 = 0x7FF0_0000_0000_0000;
    const QUIET: u64 = 0x0008_0000_0000_0000;
    let payload = random.bits() >> random.between(13, 63);
    let unsigned = match class {
        0 => 0,
        1 => random.subnormal().max(1),
        2 => (1 + random.below(0x7FE)) << 52 | random.bits() >> 12,
        3 => INFINITY,
        4 => INFINITY | payload.max(1),
        _ => INFINITY | QUIET | payload,
    };
    unsigned | (random.bits() & SIGN)
}

/// Two patterns of any two classes; where the classes are one, half of the pairs are neighbours or differ in one digit.
fn classed(random: &mut Random) -> (u64, u64) {
    let (x, y) = (random.below(6), random.below(6));
    let a = of_class(random, x);
    match random.below(4) {
        0 if x == y => (a, a.wrapping_add_signed(i64::from(random.between(-1, 1)))),
        1 if x == y => (a, a ^ (1 << random.below(52)) ^ (random.bits() & SIGN)),
        _ => (a, of_class(random, y)),
    }
}

/// The pair of a place: first every pair of special patterns, then by classes and at random in turn.
fn at(random: &mut Random, place: u64) -> (u64, u64) {
    let n = SPECIAL.len();
    let place = usize::try_from(place).unwrap_or(usize::MAX);
    if place < n * n {
        (SPECIAL[place / n], SPECIAL[place % n])
    } else if place % 2 == 0 {
        classed(random)
    } else {
        pair(random)
    }
}

fn compare(tally: &mut Tally, random: &mut Random, count: u64) {
    for place in 0..count {
        let (a, b) = at(random, place);
        let (ours, theirs) = (ffi::before(a, b), reference(a, b));
        let x = f64::from_bits(a);
        tally.judge(ours == theirs && ffi::pattern(x) == pattern(x), || {
            format!(
                "{} before {}: ours {ours}, Rust's {theirs}; pattern of the first {}",
                hex([a]),
                hex([b]),
                hex([ffi::pattern(x)])
            )
        });
    }
}

/// The Rust's totalOrder as a call, since ours is one.
#[inline(never)]
fn call(a: u64, b: u64) -> bool {
    reference(a, b)
}

fn time(random: &mut Random) {
    // Floats of ordinary size and their neighbours, as a sort meets them.
    let ab: Vec<(u64, u64)> = (0..1024)
        .map(|_| (random.ordinary().to_bits(), random.ordinary().to_bits()))
        .collect();
    let all = |f: fn(u64, u64) -> bool| {
        for &(a, b) in &ab {
            black_box(f(a, b));
        }
    };
    bench::row("order", 1, ab.len(), || all(ffi::before), || all(call));
}

/// Two patterns, and 1 where the first comes before the second or is equal, else 0.
pub fn vectors(random: &mut Random) -> Vectors {
    let pairs = (0..2000).map(|_| match random.below(2) {
        0 => (random.pick(&SPECIAL), random.pick(&SPECIAL)),
        _ => pair(random),
    });
    Vectors::alike(
        3,
        1,
        pairs
            .flat_map(|(a, b)| [a, b, u64::from(reference(a, b))])
            .collect(),
    )
}
