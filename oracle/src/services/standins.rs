//! The stand-ins of docs/SCOPE.md, each against its text in Rust.

use super::Service;
use crate::random::{pattern, Random, SPECIAL};
use crate::tally::{hex, Tally};
use crate::vectors::Vectors;
use crate::{bench, ffi};
use standins::{travel_cosine, travel_sine, StandIn};
use std::hint::black_box;

pub const SERVICE: Service = Service {
    name: "standins",
    count: 8_000_000,
    compare,
    bench: Some(time),
};

/// One stand-in; those of one operand leave the second alone.
struct Case {
    name: &'static str,
    ours: fn(f64, f64) -> f64,
    theirs: fn(f64, f64) -> f64,
    /// Operands at which it is used.
    usual: fn(&mut Random) -> f64,
}

/// The stand-ins in the order of docs/SCOPE.md; the place is the number in the stored answers.
const CASES: [Case; 8] = [
    Case {
        name: "square",
        ours: |a, _| ffi::square(a),
        theirs: |a, _| a.square(),
        usual: Random::ordinary,
    },
    Case {
        name: "hypot",
        ours: ffi::hypot,
        theirs: |a, b| a.hypotenuse(b),
        usual: Random::ordinary,
    },
    Case {
        name: "travel_sine",
        ours: |a, _| ffi::travel_sine(a),
        theirs: |a, _| travel_sine(a),
        usual: travel,
    },
    Case {
        name: "travel_cosine",
        ours: |a, _| ffi::travel_cosine(a),
        theirs: |a, _| travel_cosine(a),
        usual: travel,
    },
    Case {
        name: "radians",
        ours: |a, _| ffi::radians(a),
        theirs: |a, _| a.radians(),
        usual: |random| random.unit() * 90.0,
    },
    Case {
        name: "elevation_sine",
        ours: |a, _| ffi::elevation_sine(a),
        theirs: |a, _| a.elevation_sine(),
        usual: |random| (random.unit() * 90.0).radians(),
    },
    Case {
        name: "abs",
        ours: |a, _| ffi::abs(a),
        theirs: |a, _| a.abs(),
        usual: Random::ordinary,
    },
    Case {
        name: "max",
        ours: ffi::max,
        theirs: |a, b| a.greater(b),
        usual: Random::ordinary,
    },
];

/// A travel angle, now and then above the limit of 2^-10.
fn travel(random: &mut Random) -> f64 {
    random.unit().abs() / 1000.0
}

/// Two operands of a stand-in: usual ones, any ones, or a pair with something in common.
fn operands(case: &Case, random: &mut Random) -> (f64, f64) {
    match random.below(4) {
        0 | 1 => ((case.usual)(random), (case.usual)(random)),
        2 => (random.float(), random.float()),
        _ => {
            let a = random.float();
            (a, random.pick(&[a, -a, 0.0, -0.0, f64::NAN]))
        }
    }
}

fn compare(tally: &mut Tally, random: &mut Random, count: u64) {
    for place in 0..count {
        let case = &CASES[place as usize % CASES.len()];
        let (a, b) = operands(case, random);
        let ours = pattern((case.ours)(a, b));
        let theirs = pattern((case.theirs)(a, b));
        tally.judge(ours == theirs, || {
            format!(
                "{} of {}: ours {}, Rust's {}",
                case.name,
                hex([a.to_bits(), b.to_bits()]),
                hex([ours]),
                hex([theirs])
            )
        });
    }
    tally.note(format!("{} stand-ins in turn", CASES.len()));
}

fn time(random: &mut Random) {
    for case in &CASES {
        let ab: Vec<(f64, f64)> = (0..1024)
            .map(|_| ((case.usual)(random), (case.usual)(random)))
            .collect();
        let all = |f: fn(f64, f64) -> f64| {
            for &(a, b) in &ab {
                black_box(black_box(f)(a, b));
            }
        };
        bench::row(
            case.name,
            1,
            ab.len(),
            || all(case.ours),
            || all(case.theirs),
        );
    }
}

/// Number of the stand-in (its place in `CASES`), two operands, answer.
pub fn vectors(random: &mut Random) -> Vectors {
    let mut numbers = Vec::new();
    for (number, case) in CASES.iter().enumerate() {
        for k in 0..100 {
            let (a, b) = if k < 12 {
                let special = |random: &mut Random| f64::from_bits(random.pick(&SPECIAL));
                (special(random), special(random))
            } else {
                operands(case, random)
            };
            let answer = pattern((case.theirs)(a, b));
            numbers.extend([number as u64, a.to_bits(), b.to_bits(), answer]);
        }
    }
    Vectors::alike(4, 1, numbers)
}
