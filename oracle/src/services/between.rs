//! The displacement between two times, against `delta_position` with the interval that `GpsTime` of the
//! Rust makes of them, within the rules.

use super::displacement::{self, answer_stored};
use super::estimator::{self, Answer, Call as _};
use super::time::{EDGES, WEEK};
use super::Service;
use crate::estimate::{Between, Displacement};
use crate::ffi;
use crate::random::Random;
use crate::rules;
use crate::sky::{self, Input as _};
use crate::vectors::{of_each, Case, Vectors};
use std::hint::black_box;

pub const SERVICE: Service = Service {
    name: "between",
    count: 50_000,
    compare: estimator::compare::<3, 2, Call>,
    bench: Some(|random| estimator::time::<3, 2, Call>(random, "between", 768)),
};

/// Two times that are about so many seconds apart, now and then at an edge of 13 or of 5.
pub fn times(random: &mut Random, dt: f64) -> [u64; 2] {
    let nearly =
        |random: &mut Random, n: u64| n.wrapping_add_signed(i64::from(random.between(-2, 2)));
    let before = match random.below(4) {
        // Next to the end of a week.
        0 => {
            let week = random.below(15_002);
            nearly(random, WEEK * week)
        }
        1 => (WEEK * (1 + random.below(15_001))).wrapping_sub(random.below(1_000_000_000)),
        _ => random.below(rules::LAST + 1),
    };
    let apart = match random.below(16) {
        0 => nearly(random, WEEK),
        1 => nearly(random, 0),
        _ => (dt * 1e9) as u64,
    };
    let mut times = [before, before.wrapping_add(apart)];
    match random.below(24) {
        0 => times[random.place(2)] = random.pick(&EDGES),
        1 => times.swap(0, 1),
        2 => times[random.place(2)] = random.bits(),
        _ => {}
    }
    times
}

/// A call as the library takes it.
struct Call {
    call: displacement::Call,
    times: [u64; 2],
}

impl estimator::Call<3, 2> for Call {
    type Input = Between;

    fn input(random: &mut Random) -> Between {
        let input: Displacement = sky::input(random);
        let times = times(random, input.dt);
        Between::new(input, times)
    }

    fn clean(random: &mut Random, count: usize) -> Between {
        let input = Displacement::clean(random, count);
        let before = random.below(rules::LAST - WEEK);
        let times = [before, before + (input.dt * 1e9) as u64];
        Between::new(input, times)
    }

    fn of(input: &Between) -> Self {
        Self {
            call: displacement::Call::of(&input.displacement),
            times: input.times,
        }
    }

    #[inline]
    fn ours(&self, (delta, counts): &mut Answer<3, 2>) -> u8 {
        let call = &self.call;
        ffi::displacement_between(
            &call.previous,
            &call.current,
            self.times,
            &call.receiver,
            &call.settings,
            call.rounds,
            delta,
            counts,
        )
    }

    fn theirs(input: &Between) -> Result<Answer<3, 2>, u8> {
        let d = input.answer()?;
        let counts = [d.used, d.screened];
        Ok(([d.delta.x, d.delta.y, d.delta.z], counts))
    }

    #[inline]
    fn rust(input: &Between) {
        black_box(input.rust());
    }

    fn turn_lengths(&mut self, random: &mut Random) {
        self.call.turn_lengths(random);
    }

    fn whole(&self) -> bool {
        self.call.whole()
    }

    fn rounds(&self) -> usize {
        self.call.rounds
    }

    fn shown(&self, input: &Between) -> String {
        format!(
            "times {:?}, {}",
            self.times,
            self.call.shown(&input.displacement)
        )
    }
}

/// The two times, and what the displacement's call stores; its answer.
fn case(random: &mut Random) -> Option<(u8, Case)> {
    let input = Call::input(random);
    let stored = Call::of(&input).call.stored()?;
    let given = [input.times.to_vec(), stored].concat();
    let (number, stored) = answer_stored(input.answer());
    Some((number, (given, stored)))
}

pub fn vectors(random: &mut Random) -> Vectors {
    let wanted = [
        (0, 12),
        (2, 1),
        (3, 1),
        (4, 2),
        (5, 3),
        (7, 1),
        (8, 1),
        (9, 1),
        (10, 1),
        (13, 4),
        (15, 2),
    ];
    Vectors::of(of_each(&wanted, || case(random)))
}
