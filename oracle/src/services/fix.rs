//! The fix, against `solve_full` within the rules of docs/SCOPE.md, its chi against a plain model over the Rust's own position and clocks, and the position
//! alone, against the fix.

use super::estimator::{self, turn_columns, Answer, Call as _};
use super::Service;
use crate::estimate::Fix;
use crate::ffi::{self, observations, Columns};
use crate::random::{pattern, Random};
use crate::sky::{self, Input as _};
use crate::tally::hex;
use crate::vectors::{of_each, raw, Vectors};
use std::hint::black_box;

pub const SERVICE: Service = Service {
    name: "fix",
    count: 300_000,
    compare: estimator::compare::<5, 1, Call>,
    bench: Some(|random| estimator::time::<5, 1, Call>(random, "fix", 384)),
};

/// A call as the library takes it.
pub struct Call {
    observations: Columns<5>,
    guess: [f64; 3],
    settings: [f64; 4],
    rounds: usize,
}

impl estimator::Call<5, 1> for Call {
    type Input = Fix;

    fn input(random: &mut Random) -> Fix {
        sky::input(random)
    }

    fn clean(random: &mut Random, count: usize) -> Fix {
        Fix::clean(random, count)
    }

    fn of(input: &Fix) -> Self {
        let set = &input.settings;
        Self {
            observations: observations(&input.observations),
            guess: input.guess,
            settings: [set.sigma_a, set.sigma_b, set.huber, set.mask],
            rounds: set.iterations,
        }
    }

    #[inline]
    fn ours(&self, (solution, [used]): &mut Answer<5, 1>) -> u8 {
        ffi::fix(
            &self.observations,
            &self.guess,
            &self.settings,
            self.rounds,
            solution,
            used,
        )
    }

    /// The position alone has the same number, and the same place or its three floats untouched.
    fn agrees(&self, number: u8, (solution, _): &Answer<5, 1>) -> bool {
        const UNTOUCHED: [f64; 3] = [0.25, -0.0, f64::MAX];
        let mut place = UNTOUCHED;
        let alone = ffi::position(
            &self.observations,
            &self.guess,
            &self.settings,
            self.rounds,
            &mut place,
        );
        let expected = match number {
            0 => [solution[0], solution[1], solution[2]],
            _ => UNTOUCHED,
        };
        alone == number && place.map(f64::to_bits) == expected.map(f64::to_bits)
    }

    fn theirs(input: &Fix) -> Result<Answer<5, 1>, u8> {
        let s = input.answer()?;
        let p = s.position;
        Ok(([p.x, p.y, p.z, s.chi, s.pdop], [s.used]))
    }

    fn not_finite(input: &Fix) -> [bool; 2] {
        input.not_finite()
    }

    #[inline]
    fn rust(input: &Fix) {
        black_box(input.rust());
    }

    fn turn_lengths(&mut self, random: &mut Random) {
        turn_columns(random, &mut self.observations);
    }

    fn whole(&self) -> bool {
        self.observations.whole()
    }

    fn rounds(&self) -> usize {
        self.rounds
    }

    /// Guess, settings, rounds and count, then a line for each record: constellation and five floats.
    fn shown(&self, _: &Fix) -> String {
        let records = self.observations.constellation.iter();
        let floats = self.observations.floats.chunks(5);
        let records: Vec<String> = records
            .zip(floats)
            .map(|(c, f)| format!("{c},{}", hex(f.iter().map(|x| x.to_bits()))))
            .collect();
        format!(
            "guess {}, settings {}, rounds {}, count {}:\n{}",
            hex(self.guess.map(f64::to_bits)),
            hex(self.settings.map(f64::to_bits)),
            self.rounds,
            self.observations.count,
            records.join("\n")
        )
    }
}

/// How many records a case has room for.
const ROOM: usize = 64;

/// Guess 3, settings 4, rounds, how many records; of each record, of 64 at most, constellation, pseudorange, satellite 3, elevation; number, used,
/// position 3, chi, pdop (zeros where refused).
pub fn vectors(random: &mut Random) -> Vectors {
    let wanted = [(0, 18), (2, 1), (3, 3), (4, 3), (8, 3), (9, 2), (10, 4), (14, 4), (15, 4)];
    let next = || {
        let input: Fix = sky::input(random);
        let call = Call::of(&input);
        let o = &call.observations;
        // Few records, but for the number of too many.
        if o.count > ROOM + 1 || (o.count > 20 && o.count <= ROOM) {
            return None;
        }
        let answer = input.answer();
        let number = *answer.as_ref().err().unwrap_or(&0);
        let (used, solution) = match &answer {
            Ok(s) => {
                let p = s.position;
                (s.used, [p.x, p.y, p.z, s.chi, s.pdop])
            }
            Err(_) => (0, [0.0; 5]),
        };
        let mut given: Vec<u64> = raw(&call.guess).chain(raw(&call.settings)).collect();
        given.extend([call.rounds, o.count].map(|n| n as u64));
        for k in 0..o.count.min(ROOM) {
            given.push(u64::from(o.constellation[k]));
            given.extend(raw(&o.floats[5 * k..5 * k + 5]));
        }
        let mut stored = vec![u64::from(number), used as u64];
        stored.extend(solution.map(pattern));
        Some((number, (given, stored)))
    };
    Vectors::of(of_each(&wanted, next))
}
