//! What the comparisons of the estimators share: a call in columns, its judge and its times.

use crate::bench;
use crate::ffi::Columns;
use crate::numbers::Numbers;
use crate::random::{pattern, Random};
use crate::tally::{hex, Tally};
use std::hint::black_box;

/// An answer: F floats and C counts.
pub type Answer<const F: usize, const C: usize> = ([f64; F], [usize; C]);

/// A call as the library takes it.
pub trait Call<const F: usize, const C: usize>: Sized {
    type Input;
    /// An input of any kind.
    fn input(random: &mut Random) -> Self::Input;
    /// One under a sky of so many satellites, each of which counts.
    fn clean(random: &mut Random, count: usize) -> Self::Input;
    /// The columns of an input.
    fn of(input: &Self::Input) -> Self;
    /// Calls the library: the answer in what is lent and 0, or the number of the refusal.
    fn ours(&self, lent: &mut Answer<F, C>) -> u8;
    /// Whether the library's other entry point on the same columns says the same.
    fn agrees(&self, _number: u8, _ours: &Answer<F, C>) -> bool {
        true
    }
    /// The Rust's answer within the rules, or the number of the refusal.
    fn theirs(input: &Self::Input) -> Result<Answer<F, C>, u8>;
    /// Of an input that 14 turns away, whether chi and whether pdop is not finite.
    fn not_finite(_: &Self::Input) -> [bool; 2] {
        [false; 2]
    }
    /// The Rust alone.
    fn rust(input: &Self::Input);
    /// A column that is shorter than the count needs, or columns that are longer.
    fn turn_lengths(&mut self, random: &mut Random);
    /// Whether each column has what the count needs.
    fn whole(&self) -> bool;
    fn rounds(&self) -> usize;
    /// The input of a difference.
    fn shown(&self, input: &Self::Input) -> String;
}

/// A constellation or a float less than the count needs, more records than there are, so many that
/// their floats' number wraps, or more in each column.
pub fn turn_columns<const F: usize>(random: &mut Random, columns: &mut Columns<F>) {
    match random.below(6) {
        0 => drop(columns.constellation.pop()),
        1 => drop(columns.floats.pop()),
        2 => columns.count += 1 + random.place(2),
        3 => columns.count = random.pick(&[usize::MAX, usize::MAX / F + 1, 65]),
        _ => {
            // Beyond the count nothing may be read.
            columns.constellation.extend([9; 2]);
            columns.floats.extend([f64::NAN; 13]);
        }
    }
}

/// Compares so many calls.
pub fn compare<const F: usize, const C: usize, K: Call<F, C>>(
    tally: &mut Tally,
    random: &mut Random,
    count: u64,
) {
    let mut numbers = Numbers::default();
    let (mut still, mut far, mut odd) = (0u64, 0u64, 0u64);
    // Refused by 14: chi, pdop, both.
    let mut quality = [0u64; 3];
    for _ in 0..count {
        let input = K::input(random);
        let mut call = K::of(&input);
        if random.below(32) == 0 {
            call.turn_lengths(random);
        }
        let floats = std::array::from_fn(|_| random.float());
        let lent: Answer<F, C> = (floats, std::array::from_fn(|_| random.bits() as usize));
        let mut ours = lent;
        let number = call.ours(&mut ours);
        let expected = if call.whole() {
            K::theirs(&input)
        } else {
            Err(2)
        };
        let their_number = *expected.as_ref().err().unwrap_or(&0);
        numbers.count(their_number);
        if their_number == 14 {
            match K::not_finite(&input) {
                [true, false] => quality[0] += 1,
                [false, true] => quality[1] += 1,
                [true, true] => quality[2] += 1,
                [false, false] => {}
            }
        }
        // A refusal keeps every bit; in an answer all NaNs are one value.
        let (theirs, same) = match expected {
            Ok(theirs) => {
                still += u64::from(call.rounds() == 0);
                far += u64::from(theirs.0.iter().any(|x| x.is_finite() && x.abs() > 1e9));
                odd += u64::from(theirs.0.iter().any(|x| !x.is_finite()));
                (theirs, ours.0.map(pattern) == theirs.0.map(pattern))
            }
            Err(_) => (lent, ours.0.map(f64::to_bits) == lent.0.map(f64::to_bits)),
        };
        let same =
            same && number == their_number && ours.1 == theirs.1 && call.agrees(number, &ours);
        tally.judge(same, || {
            format!(
                "ours {number}, {:?}, {}, Rust's {their_number}, {:?}, {}, of {}",
                ours.1,
                hex(ours.0.map(f64::to_bits)),
                theirs.1,
                hex(theirs.0.map(f64::to_bits)),
                call.shown(&input)
            )
        });
    }
    let by = match quality {
        [0, 0, 0] => String::new(),
        [chi, pdop, both] => {
            format!("; 14 by chi alone {chi}, by pdop alone {pdop}, by both {both}")
        }
    };
    tally.note(format!(
        "{numbers}; accepted with zero rounds {still}, with a float above 1e9 {far}, with one that is not finite {odd}{by}"
    ));
}

/// Prints the rows of 12, 30 and 64 records, from about `records` in all.
pub fn time<const F: usize, const C: usize, K: Call<F, C>>(
    random: &mut Random,
    service: &str,
    records: usize,
) {
    for n in [12, 30, 64] {
        let mut inputs = Vec::new();
        while inputs.len() < records / n {
            let input = K::clean(random, n);
            if K::theirs(&input).is_ok() {
                inputs.push(input);
            }
        }
        let calls: Vec<K> = inputs.iter().map(K::of).collect();
        let mut lent = ([0.0; F], [0; C]);
        bench::row(
            service,
            n,
            calls.len(),
            || {
                for call in &calls {
                    black_box(black_box(call).ours(&mut lent));
                    black_box(&lent);
                }
            },
            || {
                for input in &inputs {
                    K::rust(black_box(input));
                }
            },
        );
    }
}
