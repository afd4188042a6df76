//! The displacement with its quality and that of the city profile, against the Rust's displacement within the rules, with chi and pdop by a plain model over
//! its pairs and rounds, and against the call without quality.

use super::city::of_the_city;
use super::displacement;
use super::estimator::{self, Answer, Call as _};
use super::Service;
use crate::estimate::{City, Displacement};
use crate::random::{pattern, Random};
use crate::rated::Rated;
use crate::sky::{self, Input as _};
use crate::vectors::{of_each, Case, Vectors};
use crate::{bench, ffi};
use std::hint::black_box;

pub const SERVICE: Service = Service {
    name: "rated",
    count: 100_000,
    compare: estimator::compare::<5, 2, Call<false>>,
    bench: Some(|random| {
        estimator::time::<5, 2, Call<false>>(random, "rated", 768);
        beside_plain(random);
    }),
};

pub const CITY: Service = Service {
    name: "city_rated",
    count: 100_000,
    compare: estimator::compare::<5, 2, Call<true>>,
    bench: None,
};

/// A call as the library takes it, of the city profile or not.
struct Call<const IN_CITY: bool> {
    call: displacement::Call,
    dt: f64,
    band: u32,
}

impl<const IN_CITY: bool> Call<IN_CITY> {
    /// The call without quality.
    fn plain(&self, (delta, counts): &mut Answer<3, 2>) -> u8 {
        let call = &self.call;
        if IN_CITY {
            ffi::city_displacement(
                &call.previous,
                &call.current,
                (self.dt, self.band),
                &call.receiver,
                &call.settings,
                call.rounds,
                delta,
                counts,
            )
        } else {
            ffi::displacement(
                &call.previous,
                &call.current,
                self.dt,
                &call.receiver,
                &call.settings,
                call.rounds,
                delta,
                counts,
            )
        }
    }
}

fn answer<const IN_CITY: bool>(input: &City) -> Result<Rated, u8> {
    match IN_CITY {
        true => input.rated(),
        false => input.displacement.rated(),
    }
}

impl<const IN_CITY: bool> estimator::Call<5, 2> for Call<IN_CITY> {
    type Input = City;

    /// Now and then without rounds and with a sigma of 0 or next to it, which leaves chi to be refused.
    fn input(random: &mut Random) -> City {
        let mut input: Displacement = sky::input(random);
        if random.below(32) == 0 {
            let set = &mut input.settings;
            set.iterations = random.pick(&[0, 0, 1]);
            set.sigma_a = random.pick(&[0.0, 5e-324, 1e-300, -0.0]);
            set.sigma_b = 0.0;
        }
        match IN_CITY {
            true => of_the_city(random, input),
            false => City {
                displacement: input,
                band: 0,
            },
        }
    }

    fn clean(random: &mut Random, count: usize) -> City {
        City {
            displacement: Displacement::clean(random, count),
            band: 0,
        }
    }

    fn of(input: &City) -> Self {
        Self {
            call: displacement::Call::of(&input.displacement),
            dt: input.displacement.dt,
            band: input.band,
        }
    }

    #[inline]
    fn ours(&self, ([x, y, z, chi, pdop], counts): &mut Answer<5, 2>) -> u8 {
        let call = &self.call;
        let (mut delta, mut quality) = ([*x, *y, *z], [*chi, *pdop]);
        let number = ffi::displacement_rated(
            &call.previous,
            &call.current,
            (self.dt, IN_CITY.then_some(self.band)),
            &call.receiver,
            &call.settings,
            call.rounds,
            &mut delta,
            &mut quality,
            counts,
        );
        ([*x, *y, *z], [*chi, *pdop]) = (delta, quality);
        number
    }

    /// The call without quality has the same displacement and counts, or the same refusal; where it accepts, 10 and 14 alone are left.
    fn agrees(&self, number: u8, ([x, y, z, ..], counts): &Answer<5, 2>) -> bool {
        let mut plain = ([0.25; 3], [7; 2]);
        match self.plain(&mut plain) {
            0 if number == 0 => {
                plain.0.map(f64::to_bits) == [x, y, z].map(|x| x.to_bits()) && plain.1 == *counts
            }
            0 => matches!(number, 10 | 14),
            refused => number == refused,
        }
    }

    fn theirs(input: &City) -> Result<Answer<5, 2>, u8> {
        let (d, [chi, pdop]) = answer::<IN_CITY>(input)?;
        Ok((
            [d.delta.x, d.delta.y, d.delta.z, chi, pdop],
            [d.used, d.screened],
        ))
    }

    fn not_finite(input: &City) -> [bool; 2] {
        match IN_CITY {
            true => input.left().figures_not_finite(),
            false => input.displacement.figures_not_finite(),
        }
    }

    #[inline]
    fn rust(input: &City) {
        black_box(input.displacement.plain_rated());
    }

    fn turn_lengths(&mut self, random: &mut Random) {
        self.call.turn_lengths(random);
    }

    fn whole(&self) -> bool {
        self.call.whole()
    }

    fn rounds(&self) -> usize {
        self.call.rounds
    }

    fn shown(&self, input: &City) -> String {
        let shown = self.call.shown(&input.displacement);
        format!("band {}, {shown}", self.band)
    }
}

/// Prints rows in which the call without quality stands in the Rust's place.
fn beside_plain(random: &mut Random) {
    for n in [12, 30, 64] {
        let mut calls = Vec::new();
        while calls.len() < 768 / n {
            let input = Call::<false>::clean(random, n);
            if Call::<false>::theirs(&input).is_ok() {
                calls.push(Call::<false>::of(&input));
            }
        }
        let (mut lent, mut plain) = (([0.0; 5], [0; 2]), ([0.0; 3], [0; 2]));
        bench::row(
            "rated beside displacement",
            n,
            calls.len(),
            || {
                for call in &calls {
                    black_box(black_box(call).ours(&mut lent));
                    black_box(&lent);
                }
            },
            || {
                for call in &calls {
                    black_box(black_box(call).plain(&mut plain));
                    black_box(&plain);
                }
            },
        );
    }
}

/// dt, whether in the city profile, the band, and what the displacement's call stores; number, used, screened, displacement 3, chi, pdop (zeros where refused).
fn stored<const IN_CITY: bool>(input: &City) -> Option<(u8, Case)> {
    let call = Call::<IN_CITY>::of(input);
    let first = [call.dt.to_bits(), u64::from(IN_CITY), u64::from(input.band)];
    let given = [first.to_vec(), call.call.stored()?].concat();
    let answer = answer::<IN_CITY>(input);
    let number = *answer.as_ref().err().unwrap_or(&0);
    let mut out = vec![u64::from(number)];
    match answer {
        Ok((d, [chi, pdop])) => {
            out.extend([d.used as u64, d.screened as u64]);
            out.extend([d.delta.x, d.delta.y, d.delta.z, chi, pdop].map(pattern));
        }
        Err(_) => out.extend([0; 7]),
    }
    Some((number, (given, out)))
}

pub fn vectors(random: &mut Random) -> Vectors {
    let wanted = [
        (0, 12),
        (2, 1),
        (3, 1),
        (4, 1),
        (5, 1),
        (7, 1),
        (8, 2),
        (9, 1),
        (10, 4),
        (14, 4),
        (15, 1),
        (20, 2),
    ];
    let next = || match random.below(2) {
        0 => stored::<false>(&Call::<false>::input(random)),
        _ => stored::<true>(&Call::<true>::input(random)),
    };
    Vectors::of(of_each(&wanted, next))
}

#[cfg(test)]
mod tests {
    use super::*;

    /// Both sides' number of an input.
    fn numbers(input: &City) -> [u8; 2] {
        let mut lent = ([0.5; 5], [9; 2]);
        let ours = Call::<false>::of(input).ours(&mut lent);
        [ours, answer::<false>(input).err().unwrap_or(0)]
    }

    #[test]
    fn six_equal_pairs_are_accepted_and_rated_10() {
        let mut input = Call::<false>::clean(&mut Random::new(1, "rated"), 12);
        let d = &mut input.displacement;
        d.previous = vec![d.previous[0]; 6];
        d.current = d.previous.clone();
        d.settings.iterations = 0;
        assert!(d.answer().is_ok());
        assert_eq!(numbers(&input), [10, 10]);
    }

    #[test]
    fn a_sigma_of_zero_is_rated_14_without_rounds() {
        let mut input = Call::<false>::clean(&mut Random::new(1, "rated"), 12);
        let set = &mut input.displacement.settings;
        (set.iterations, set.sigma_a, set.sigma_b) = (0, 0.0, 0.0);
        assert!(input.displacement.answer().is_ok());
        assert_eq!(numbers(&input), [14, 14]);
    }
}
