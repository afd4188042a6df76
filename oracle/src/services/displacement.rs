//! The displacement, against `delta_position` within the rules of docs/SCOPE.md.

use super::estimator::{self, turn_columns, Answer, Call as _};
use super::Service;
use crate::estimate::Displacement;
use crate::ffi::{self, Carriers};
use crate::line_form;
use crate::random::Random;
use crate::sky::{self, Input as _};
use crate::vectors::{of_each, raw, Case, Vectors};
use drifters_gnss::tdcp::Delta;
use std::hint::black_box;

pub const SERVICE: Service = Service {
    name: "displacement",
    count: 500_000,
    compare: estimator::compare::<3, 2, Call>,
    bench: Some(|random| estimator::time::<3, 2, Call>(random, "displacement", 768)),
};

/// A call as the library takes it.
pub struct Call {
    pub previous: Carriers,
    pub current: Carriers,
    dt: f64,
    pub receiver: [f64; 3],
    pub settings: [f64; 5],
    pub rounds: usize,
}

impl estimator::Call<3, 2> for Call {
    type Input = Displacement;

    fn input(random: &mut Random) -> Displacement {
        sky::input(random)
    }

    fn clean(random: &mut Random, count: usize) -> Displacement {
        Displacement::clean(random, count)
    }

    fn of(input: &Displacement) -> Self {
        let set = &input.settings;
        Self {
            previous: Carriers::of(&input.previous),
            current: Carriers::of(&input.current),
            dt: input.dt,
            receiver: input.receiver,
            settings: [set.screen, set.sigma_a, set.sigma_b, set.huber, set.mask],
            rounds: set.iterations,
        }
    }

    #[inline]
    fn ours(&self, (delta, counts): &mut Answer<3, 2>) -> u8 {
        ffi::displacement(
            &self.previous,
            &self.current,
            self.dt,
            &self.receiver,
            &self.settings,
            self.rounds,
            delta,
            counts,
        )
    }

    fn theirs(input: &Displacement) -> Result<Answer<3, 2>, u8> {
        let d = input.answer()?;
        let counts = [d.used, d.screened];
        Ok(([d.delta.x, d.delta.y, d.delta.z], counts))
    }

    #[inline]
    fn rust(input: &Displacement) {
        black_box(input.rust());
    }

    fn turn_lengths(&mut self, random: &mut Random) {
        let epoch = match random.below(2) {
            0 => &mut self.previous,
            _ => &mut self.current,
        };
        match random.below(9) {
            0 => drop(epoch.svid.pop()),
            1 => drop(epoch.band.pop()),
            2 => drop(epoch.state.pop()),
            _ => {
                epoch.svid.extend([1; 3]);
                epoch.band.extend([1575; 2]);
                epoch.state.extend([1; 4]);
                turn_columns(random, &mut epoch.columns);
            }
        }
    }

    fn whole(&self) -> bool {
        self.previous.whole() && self.current.whole()
    }

    fn rounds(&self) -> usize {
        self.rounds
    }

    fn shown(&self, input: &Displacement) -> String {
        let counts = (self.previous.columns.count, self.current.columns.count);
        let lines = line_form::lines(input).join("\n");
        format!("counts {counts:?}:\n{lines}")
    }
}

/// How many records of an epoch a case has room for.
const ROOM: usize = 64;

impl Call {
    /// Receiver 3, settings 5, rounds, how many previous records, how many current ones; of each record, of 64 an epoch at most,
    /// constellation, svid, band, state, adr, satellite 3, elevation, rate. None where they are too many to store.
    pub fn stored(&self) -> Option<Vec<u64>> {
        let (p, c) = (self.previous.columns.count, self.current.columns.count);
        // Few records, but for the number of too many.
        if p.max(c) > ROOM + 1 || (p + c > 40 && p.max(c) <= ROOM) {
            return None;
        }
        let mut given: Vec<u64> = raw(&self.receiver).chain(raw(&self.settings)).collect();
        given.extend([self.rounds, p, c].map(|n| n as u64));
        for e in [&self.previous, &self.current] {
            for k in 0..e.columns.count.min(ROOM) {
                given.extend([u64::from(e.columns.constellation[k]), u64::from(e.svid[k])]);
                given.extend([u64::from(e.band[k]), e.state[k] as u64]);
                given.extend(raw(&e.columns.floats[6 * k..6 * k + 6]));
            }
        }
        Some(given)
    }
}

/// Number, used, screened, displacement 3 (zeros where refused), behind its number.
pub fn answer_stored(answer: Result<Delta, u8>) -> (u8, Vec<u64>) {
    let number = *answer.as_ref().err().unwrap_or(&0);
    let (counts, delta) = match &answer {
        Ok(d) => ([d.used, d.screened], [d.delta.x, d.delta.y, d.delta.z]),
        Err(_) => ([0; 2], [0.0; 3]),
    };
    let mut stored = vec![u64::from(number)];
    stored.extend(counts.map(|n| n as u64));
    stored.extend(delta.map(f64::to_bits));
    (number, stored)
}

/// dt, and what the call stores; its answer.
fn case(random: &mut Random) -> Option<(u8, Case)> {
    let input: Displacement = sky::input(random);
    let call = Call::of(&input);
    let given = [vec![call.dt.to_bits()], call.stored()?].concat();
    let (number, stored) = answer_stored(input.answer());
    Some((number, (given, stored)))
}

pub fn vectors(random: &mut Random) -> Vectors {
    let wanted = [
        (0, 18),
        (2, 1),
        (3, 2),
        (4, 3),
        (5, 2),
        (7, 3),
        (8, 3),
        (9, 2),
        (10, 3),
        (15, 4),
    ];
    Vectors::of(of_each(&wanted, || case(random)))
}
