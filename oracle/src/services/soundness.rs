//! The accuracy bound over every round of accepted displacements and fixes of the Rust, exactly.

use super::accuracy::{all_finite, check};
use super::Service;
use crate::estimate::{Displacement, Fix};
use crate::ffi::Square;
use crate::random::Random;
use crate::sky;
use crate::tally::{hex, Tally};
use drifters_gnss::record::{rounds_of, Round};

pub const SERVICE: Service = Service {
    name: "soundness",
    count: 100_000,
    compare,
    bench: None,
};

/// The largest ratio of left side to bound in a round, and whether all four are finite and the bound
/// holds in each row.
fn sound(round: &Round) -> (f64, bool) {
    let lower = |m: &Square| (0..9).all(|i| all_finite(&m[i][..=i]));
    let finite = lower(&round.matrix) && lower(&round.factor);
    if finite && all_finite(&round.right) && all_finite(&round.step) {
        check(&round.matrix, &round.right, &round.factor, &round.step)
    } else {
        (f64::INFINITY, false)
    }
}

/// Checks the rounds of so many accepted calls, displacements and fixes in turn.
fn compare(tally: &mut Tally, random: &mut Random, count: u64) {
    let (mut calls, mut displacements, mut fixes) = (0, 0u64, 0u64);
    let mut largest = 0f64;
    while calls < count {
        let (accepted, rounds) = if calls % 2 == 0 {
            let input: Displacement = sky::input(random);
            rounds_of(|| input.answer().is_ok())
        } else {
            let input: Fix = sky::input(random);
            let (answer, rounds) = input.answer_and_rounds();
            (answer.is_ok(), rounds)
        };
        if !accepted {
            continue;
        }
        let of = if calls % 2 == 0 {
            &mut displacements
        } else {
            &mut fixes
        };
        *of += rounds.len() as u64;
        calls += 1;
        for round in &rounds {
            let (ratio, holds) = sound(round);
            largest = largest.max(ratio);
            tally.judge(holds, || {
                format!(
                    "the bound fails, ratio {ratio:.6}: matrix {}, right side {}, step {}",
                    hex(super::factor::raw(&round.matrix)),
                    hex(round.right.map(f64::to_bits)),
                    hex(round.step.map(f64::to_bits))
                )
            });
        }
    }
    tally.note(format!(
        "{displacements} rounds of displacements and {fixes} of fixes, {calls} accepted calls in all, largest ratio of left side to bound {largest:.6}"
    ));
}
