//! The sigma of an elevation, against `elevation_sigma` with the stand-ins.

use super::Service;
use crate::ffi;
use crate::random::{pattern, Random};
use crate::tally::{hex, Tally};
use crate::vectors::Vectors;
use drifters_gnss::robust::elevation_sigma;

pub const SERVICE: Service = Service {
    name: "sigma",
    count: 10_000_000,
    compare,
    bench: None,
};

/// An elevation: of the sky, next to where the limit of 3 degrees lies, or any float.
fn elevation(random: &mut Random) -> f64 {
    match random.below(4) {
        0 => f64::from_bits(
            3f64.to_bits()
                .wrapping_add_signed(i64::from(random.between(-3, 3))),
        ),
        1 => random.float(),
        2 => random.unit() * 100.0,
        _ => 3.0 + random.unit(),
    }
}

/// An elevation and the two numbers of the sigma.
fn input(random: &mut Random) -> [f64; 3] {
    let elevation = elevation(random);
    let (a, b) = match random.below(4) {
        0 => (random.float(), random.float()),
        1 => (0.008, 0.002),
        _ => (random.unit(), 20.0 * random.unit()),
    };
    [elevation, a, b]
}

fn compare(tally: &mut Tally, random: &mut Random, count: u64) {
    for _ in 0..count {
        let [elevation, a, b] = input(random);
        let ours = ffi::elevation_sigma(elevation, a, b);
        let theirs = elevation_sigma(elevation, a, b);
        tally.judge(pattern(ours) == pattern(theirs), || {
            format!(
                "of {}: ours {}, Rust's {}",
                hex([elevation, a, b].map(f64::to_bits)),
                hex([pattern(ours)]),
                hex([pattern(theirs)])
            )
        });
    }
}

/// Elevation, a, b, sigma.
pub fn vectors(random: &mut Random) -> Vectors {
    let one = |_| {
        let given = input(random);
        let [elevation, a, b] = given;
        let answer = pattern(elevation_sigma(elevation, a, b));
        (given.map(f64::to_bits).to_vec(), vec![answer])
    };
    Vectors::of((0..60).map(one).collect())
}
