//! The city displacement, against `delta_position` of the epochs with all carriers but those of GPS and
//! Galileo on one band taken out, within the rules; 20 is a plain rule over the pairs kept.

use super::displacement::{self, answer_stored};
use super::estimator::{self, Answer, Call as _};
use super::Service;
use crate::estimate::{City, Displacement};
use crate::ffi;
use crate::random::Random;
use crate::sky::{self, Input as _};
use crate::vectors::{of_each, Case, Vectors};
use std::hint::black_box;

pub const SERVICE: Service = Service {
    name: "city",
    count: 100_000,
    compare: estimator::compare::<3, 2, Call>,
    bench: Some(|random| estimator::time::<3, 2, Call>(random, "city", 768)),
};

/// Most carriers of GPS and Galileo on one band, and now and then one of the two alone, one that the
/// screen drops, or none on the band.
pub fn of_the_city(random: &mut Random, mut displacement: Displacement) -> City {
    let share = 1 + random.below(4);
    let gone = random.below(8);
    let lost = random.pick(&[1, 6]);
    for epoch in [&mut displacement.previous, &mut displacement.current] {
        for c in epoch.iter_mut() {
            let kind = u64::from(c.svid) % (2 * share + 1);
            if kind < 2 * share {
                c.constellation = if kind % 2 == 0 { 1 } else { 6 };
                c.band = 1575;
            }
            if gone == 0 && c.constellation == lost {
                c.constellation = 3;
            }
        }
    }
    if gone == 1 {
        // One of the two is there, and the screen drops it.
        for (k, c) in displacement.current.iter_mut().enumerate() {
            if c.constellation == lost {
                c.adr += 1e4 * (1 + k) as f64;
            }
        }
    }
    if gone == 2 {
        // A float out of range in a carrier that is taken out.
        let others = displacement.current.iter_mut();
        let other = others.filter(|c| !matches!(c.constellation, 1 | 6)).last();
        if let Some(c) = other {
            c.rate = random.pick(&[f64::NAN, 2e9, f64::INFINITY]);
        }
    }
    let band = match random.below(16) {
        0 => random.pick(&[1176, 1602, 0, u32::MAX]),
        _ => 1575,
    };
    City { displacement, band }
}

/// A call as the library takes it.
struct Call {
    call: displacement::Call,
    dt: f64,
    band: u32,
}

impl estimator::Call<3, 2> for Call {
    type Input = City;

    fn input(random: &mut Random) -> City {
        let input: Displacement = sky::input(random);
        of_the_city(random, input)
    }

    /// Every carrier is certified.
    fn clean(random: &mut Random, count: usize) -> City {
        let mut displacement = Displacement::clean(random, count);
        for epoch in [&mut displacement.previous, &mut displacement.current] {
            for c in epoch.iter_mut() {
                c.constellation = if c.svid % 2 == 0 { 1 } else { 6 };
                c.band = 1575;
            }
        }
        City {
            displacement,
            band: 1575,
        }
    }

    fn of(input: &City) -> Self {
        Self {
            call: displacement::Call::of(&input.displacement),
            dt: input.displacement.dt,
            band: input.band,
        }
    }

    #[inline]
    fn ours(&self, (delta, counts): &mut Answer<3, 2>) -> u8 {
        let call = &self.call;
        ffi::city_displacement(
            &call.previous,
            &call.current,
            (self.dt, self.band),
            &call.receiver,
            &call.settings,
            call.rounds,
            delta,
            counts,
        )
    }

    fn theirs(input: &City) -> Result<Answer<3, 2>, u8> {
        let d = input.answer()?;
        let counts = [d.used, d.screened];
        Ok(([d.delta.x, d.delta.y, d.delta.z], counts))
    }

    #[inline]
    fn rust(input: &City) {
        black_box(input.displacement.rust());
    }

    fn turn_lengths(&mut self, random: &mut Random) {
        self.call.turn_lengths(random);
    }

    fn whole(&self) -> bool {
        self.call.whole()
    }

    fn rounds(&self) -> usize {
        self.call.rounds
    }

    fn shown(&self, input: &City) -> String {
        format!("band {}, {}", self.band, self.call.shown(&input.displacement))
    }
}

/// dt, the band, and what the displacement's call stores; its answer.
fn case(random: &mut Random) -> Option<(u8, Case)> {
    let input = Call::input(random);
    let call = Call::of(&input);
    let given = [
        vec![call.dt.to_bits(), u64::from(call.band)],
        call.call.stored()?,
    ]
    .concat();
    let (number, stored) = answer_stored(input.answer());
    Some((number, (given, stored)))
}

pub fn vectors(random: &mut Random) -> Vectors {
    let wanted = [
        (0, 12),
        (2, 1),
        (3, 1),
        (4, 2),
        (5, 1),
        (7, 2),
        (8, 2),
        (10, 1),
        (15, 1),
        (20, 4),
    ];
    Vectors::of(of_each(&wanted, || case(random)))
}
