//! Request (vi): a query just past a signal's last sample, where the library gives that sample and the Rust nothing. A plain model in its place.

use super::lent::Table;
use crate::random::Random;
use drifters_gnss::differential::Corrections;

/// The last sample's correction, where the time is after it by less than 1e-6 s in the rounded difference.
pub fn just_past(c: &Corrections, key: (u8, u16, u8), time: f64) -> Option<f64> {
    let &(last, metres) = c.series.get(&key)?.last()?;
    (last < time && time - last < 1e-6).then_some(metres)
}

/// What a query is to answer: the model's sample there, and what the Rust answers at every other time.
pub fn answer(c: &Corrections, key: (u8, u16, u8), time: f64) -> Option<f64> {
    just_past(c, key, time).or_else(|| c.at(key.0, key.1, key.2, time))
}

/// A time at or about 1e-6 s after the last sample of the signal at row `i`, or after the row itself.
pub fn times_past(random: &mut Random, table: &Table, i: usize) -> f64 {
    let mut last = i;
    if table.n > 0 && random.below(8) > 0 {
        let j = table.holding(i);
        last = table.df[j] + table.dn[j] - 1;
    }
    let at = if table.n > 0 { table.ts[last] } else { 0.0 };
    let time = at + random.pick(&[0.0, 1e-7, 5e-7, 1e-6, 1e-6, 1e-6, 2e-6, 1e-3]);
    match random.below(3) {
        0 => time.next_up(),
        1 => time.next_down(),
        _ => time,
    }
}
