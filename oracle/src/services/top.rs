//! A satellite on top of the receiver: displacements and fixes under skies that put one there, against the Rust where no range met is zero or not finite, and
//! against the plain model of 15 where one is.

use super::estimator::{self, Answer};
use super::{displacement, fix, Service};
use crate::estimate::{Displacement, Fix};
use crate::random::Random;
use crate::sky::top;

pub const DISPLACEMENT: Service = Service {
    name: "top_displacement",
    count: 100_000,
    compare: estimator::compare::<3, 2, Moved>,
    bench: None,
};

pub const FIX: Service = Service {
    name: "top_fix",
    count: 30_000,
    compare: estimator::compare::<5, 1, Standing>,
    bench: None,
};

/// The call of another service, under skies of its own.
struct Moved(displacement::Call);
struct Standing(fix::Call);

macro_rules! under {
    ($name:ident, $floats:literal, $counts:literal, $call:ty, $input:ty, $sky:path) => {
        impl estimator::Call<$floats, $counts> for $name {
            type Input = $input;

            fn input(random: &mut Random) -> $input {
                $sky(random)
            }

            fn clean(random: &mut Random, count: usize) -> $input {
                <$call>::clean(random, count)
            }

            fn of(input: &$input) -> Self {
                Self(<$call>::of(input))
            }

            fn ours(&self, lent: &mut Answer<$floats, $counts>) -> u8 {
                self.0.ours(lent)
            }

            fn agrees(&self, number: u8, ours: &Answer<$floats, $counts>) -> bool {
                self.0.agrees(number, ours)
            }

            fn theirs(input: &$input) -> Result<Answer<$floats, $counts>, u8> {
                <$call>::theirs(input)
            }

            fn not_finite(input: &$input) -> [bool; 2] {
                <$call>::not_finite(input)
            }

            fn rust(input: &$input) {
                <$call>::rust(input);
            }

            fn turn_lengths(&mut self, random: &mut Random) {
                self.0.turn_lengths(random);
            }

            fn whole(&self) -> bool {
                self.0.whole()
            }

            fn rounds(&self) -> usize {
                estimator::Call::rounds(&self.0)
            }

            fn shown(&self, input: &$input) -> String {
                self.0.shown(input)
            }
        }
    };
}

under!(
    Moved,
    3,
    2,
    displacement::Call,
    Displacement,
    top::displacement
);
under!(Standing, 5, 1, fix::Call, Fix, top::fix);
