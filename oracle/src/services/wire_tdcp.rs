//! The displacement between two slices of carrier records, against `delta_position` on the records that the plain
//! reader finds, within the rules: every length and every room of the result first. Each call is held to the
//! library's own call on columns as well.

use super::displacement;
use super::estimator::{self, Answer};
use super::wire::{bytes_of, records_of, Record, RECORD};
use super::Service;
use crate::estimate::Displacement;
use crate::ffi;
use crate::random::Random;
use crate::rules::RECORDS;
use crate::sky::{self, Input as _};
use crate::tally::Tally;
use crate::vectors::{of_each, packed, raw, Case, Vectors};
use drifters_gnss::tdcp::Carrier;
use std::hint::black_box;

pub const SERVICE: Service = Service {
    name: "wire_tdcp",
    count: 100_000,
    compare,
    bench: Some(|random| estimator::time::<3, 2, Call>(random, "displacement of records", 768)),
};

/// The bytes of a result.
const RESULT: usize = 40;

/// A displacement, and its epochs as bytes.
pub struct Input {
    displacement: Displacement,
    previous: Vec<u8>,
    current: Vec<u8>,
}

/// The bytes of an epoch.
pub fn slice(epoch: &[Carrier]) -> Vec<u8> {
    let records: Vec<Record> = epoch.iter().map(Record::of).collect();
    bytes_of(&records)
}

/// The epoch of a slice.
fn epoch(bytes: &[u8]) -> Vec<Carrier> {
    records_of(bytes).iter().map(Record::carrier).collect()
}

/// dt, receiver 3, settings 5: the floats of line S in its order.
pub fn line_s(d: &Displacement) -> [f64; 9] {
    let ([x, y, z], s) = (d.receiver, &d.settings);
    [
        d.dt, x, y, z, s.screen, s.sigma_a, s.sigma_b, s.huber, s.mask,
    ]
}

/// The rounds in 32 bits; every count above 50 is refused alike.
pub fn rounds(d: &Displacement) -> u32 {
    u32::try_from(d.settings.iterations).unwrap_or(u32::MAX)
}

impl Input {
    fn new(displacement: Displacement) -> Self {
        Self {
            previous: slice(&displacement.previous),
            current: slice(&displacement.current),
            displacement,
        }
    }
}

/// A call as the library takes it.
struct Call {
    previous: Vec<u8>,
    current: Vec<u8>,
    floats: [f64; 9],
    rounds: u32,
    /// How many bytes are lent for the result.
    room: usize,
    /// The same as columns.
    columns: displacement::Call,
}

/// The bytes of an answer.
fn result_of((delta, counts): &Answer<3, 2>) -> [u8; RESULT] {
    let mut out = [0; RESULT];
    let words = counts.map(|n| n as u64).into_iter().chain(raw(delta));
    for (place, word) in out.chunks_exact_mut(8).zip(words) {
        place.copy_from_slice(&word.to_le_bytes());
    }
    out
}

/// The answer of 40 bytes.
fn answer_of(result: &[u8]) -> Answer<3, 2> {
    let word = |k: usize| u64::from_le_bytes(result[8 * k..8 * k + 8].try_into().unwrap());
    let delta = [2, 3, 4].map(|k| f64::from_bits(word(k)));
    (delta, [word(0) as usize, word(1) as usize])
}

impl estimator::Call<3, 2> for Call {
    type Input = Input;

    fn input(random: &mut Random) -> Input {
        Input::new(sky::input(random))
    }

    fn clean(random: &mut Random, count: usize) -> Input {
        Input::new(Displacement::clean(random, count))
    }

    fn of(input: &Input) -> Self {
        Self {
            previous: input.previous.clone(),
            current: input.current.clone(),
            floats: line_s(&input.displacement),
            rounds: rounds(&input.displacement),
            room: RESULT,
            columns: displacement::Call::of(&input.displacement),
        }
    }

    /// The lent answer stands in the result before the call, so that a refusal gives it back.
    #[inline]
    fn ours(&self, lent: &mut Answer<3, 2>) -> u8 {
        let mut result = [0xC7; RESULT + 8];
        result[..RESULT].copy_from_slice(&result_of(lent));
        let number = ffi::displacement_records(
            &self.previous,
            &self.current,
            &self.floats,
            self.rounds,
            &mut result[..self.room],
        );
        assert!(result[RESULT..] == [0xC7; 8], "bytes past the fortieth");
        *lent = answer_of(&result);
        number
    }

    /// The call on columns has the same number and the same answer, to the last bit.
    fn agrees(&self, number: u8, ours: &Answer<3, 2>) -> bool {
        let mut other = ([0.0; 3], [0; 2]);
        let theirs = self.columns.ours(&mut other);
        match (self.whole(), theirs) {
            (false, _) => number == 2,
            (true, 0) => number == 0 && result_of(&other) == result_of(ours),
            (true, n) => number == n,
        }
    }

    fn theirs(input: &Input) -> Result<Answer<3, 2>, u8> {
        let d = input.displacement.answer()?;
        let counts = [d.used, d.screened];
        Ok(([d.delta.x, d.delta.y, d.delta.z], counts))
    }

    /// The plain reader, and the Rust on what it finds.
    #[inline]
    fn rust(input: &Input) {
        let d = &input.displacement;
        black_box(
            Displacement {
                previous: epoch(&input.previous),
                current: epoch(&input.current),
                dt: d.dt,
                receiver: d.receiver,
                settings: d.settings,
            }
            .rust(),
        );
    }

    /// Fewer bytes for the result than it needs, or more.
    fn turn_lengths(&mut self, random: &mut Random) {
        self.room = random.place(RESULT + 9);
    }

    fn whole(&self) -> bool {
        self.room >= RESULT
    }

    fn rounds(&self) -> usize {
        self.rounds as usize
    }

    fn shown(&self, input: &Input) -> String {
        let lengths = (self.previous.len(), self.current.len(), self.room);
        format!(
            "lengths {lengths:?}, {}",
            self.columns.shown(&input.displacement)
        )
    }
}

/// The number that lengths decide: 21 of either slice, then 2.
fn number_of(previous: usize, current: usize, room: usize) -> Option<u8> {
    let whole = previous % RECORD == 0 && current % RECORD == 0;
    let few = previous / RECORD <= RECORDS && current / RECORD <= RECORDS;
    match (whole, few && room >= RESULT) {
        (false, _) => Some(21),
        (true, false) => Some(2),
        (true, true) => None,
    }
}

/// Every length from 0 to 66 records with one byte less and more of either slice, beside every room of 0 to 41 bytes.
fn edges(tally: &mut Tally, random: &mut Random) {
    let good = Displacement::clean(random, 66);
    let [p, c] = [&good.previous, &good.current].map(|e| {
        let mut bytes = slice(e);
        bytes.resize(RECORD * 66 + 1, 0x3F);
        bytes
    });
    let lengths =
        (0..=66usize).flat_map(|n| [(RECORD * n).saturating_sub(1), RECORD * n, RECORD * n + 1]);
    for length in lengths {
        for (m, n) in [
            (length, 64 * RECORD),
            (64 * RECORD, length),
            (length, length),
            (length, 65 * RECORD),
        ] {
            for room in 0..=41 {
                let input = Displacement {
                    previous: epoch(&p[..m]),
                    current: epoch(&c[..n]),
                    ..good
                };
                let lent: [u8; 48] = std::array::from_fn(|_| random.bits() as u8);
                let mut ours = lent;
                let number = ffi::displacement_records(
                    &p[..m],
                    &c[..n],
                    &line_s(&input),
                    rounds(&input),
                    &mut ours[..room],
                );
                let expected = match number_of(m, n, room) {
                    Some(number) => Err(number),
                    None => input.answer(),
                };
                let wanted = *expected.as_ref().err().unwrap_or(&0);
                let mut result = lent;
                if let Ok(d) = &expected {
                    let answer = ([d.delta.x, d.delta.y, d.delta.z], [d.used, d.screened]);
                    result[..RESULT].copy_from_slice(&result_of(&answer));
                }
                tally.judge(number == wanted && ours == result, || {
                    format!("{m} and {n} bytes, {room} for the result: ours {number}, {ours:02X?}, Rust's {wanted}, {result:02X?}")
                });
            }
        }
    }
}

fn compare(tally: &mut Tally, random: &mut Random, count: u64) {
    edges(tally, random);
    estimator::compare::<3, 2, Call>(tally, random, count);
}

/// The previous bytes, the current ones, dt, receiver 3, settings 5, rounds, how long the result is; number, used, screened,
/// displacement 3 (zeros where refused).
fn case(random: &mut Random) -> Option<(u8, Case)> {
    let input: Displacement = sky::input(random);
    let (m, n) = (input.previous.len(), input.current.len());
    // Few records, but for the number of too many.
    if m.max(n) > 65 || (m + n > 40 && m.max(n) <= 64) {
        return None;
    }
    let [mut p, mut c] = [&input.previous, &input.current].map(|e| slice(e));
    let mut room = RESULT;
    match random.below(8) {
        0 => drop(p.pop()),
        1 => c.push(0),
        2 => room = random.place(RESULT + 9),
        _ => {}
    }
    let mut given = [packed(&p), packed(&c)].concat();
    given.extend(raw(&line_s(&input)));
    given.extend([u64::from(rounds(&input)), room as u64]);
    let answer = match number_of(p.len(), c.len(), room) {
        Some(number) => Err(number),
        None => input.answer(),
    };
    let (number, stored) = displacement::answer_stored(answer);
    Some((number, (given, stored)))
}

pub fn vectors(random: &mut Random) -> Vectors {
    let wanted = [
        (21, 6),
        (2, 3),
        (3, 1),
        (4, 2),
        (5, 1),
        (7, 1),
        (8, 1),
        (9, 1),
        (10, 1),
        (0, 10),
    ];
    Vectors::of(of_each(&wanted, || case(random)))
}
