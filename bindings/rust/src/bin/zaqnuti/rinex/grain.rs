//! Navigation records against the units of the broadcast messages, by which a damaged digit is told.

use std::f64::consts::PI;

use super::signals::System;

/// The parts of a number by which it may miss a whole multiple: files have 12 digits, and some
/// programs have kept rates in 32 bits. And the greatest part of a unit.
const DIGITS: f64 = 5.5e-12;
const SINGLE: f64 = 6.2e-8;
const STRAY: f64 = 0.012;
/// How many times larger a correction or a rate may be than in all other records.
const LARGER: f64 = 5.0;
/// The least number of records that can be compared.
const LEAST: usize = 3;

/// Returns the unit of a number of a record (IS-GPS-200 tables 20-I and 20-III, Galileo OS SIS ICD
/// tables 66 to 72, BDS-SIS-ICD-B1I table 5-10, GLONASS ICD table 4.5), counted from the clock on.
fn unit(system: System, index: usize) -> Option<f64> {
    use System::{Beidou, Galileo, Glonass, Gps};
    let two = |n: i32| 2_f64.powi(n);
    Some(match (system, index) {
        (Glonass, 0 | 5 | 9 | 13) => two(-30),
        (Glonass, 1) => two(-40),
        (Glonass, 3 | 7 | 11) => two(-11),
        (Glonass, 4 | 8 | 12) => two(-20),
        (Glonass, 6 | 10 | 14) => 1.0,
        (Glonass, _) => return None,
        (Gps, 0 | 25) => two(-31),
        (Gps, 1) => two(-43),
        (Gps, 2) => two(-55),
        (Galileo, 0) => two(-34),
        (Galileo, 1) => two(-46),
        (Galileo, 2) => two(-59),
        (Galileo, 25 | 26) => two(-32),
        (Beidou, 0) => two(-33),
        (Beidou, 1) => two(-50),
        (Beidou, 2) => two(-66),
        (Beidou, 25 | 26) => 1e-10,
        (Beidou, 4 | 16) => two(-6),
        (_, 4 | 16) => two(-5),
        (Beidou, 7 | 9 | 12 | 14) => two(-31),
        (_, 7 | 9 | 12 | 14) => two(-29),
        (Gps, 11) => 16.0,
        (Galileo, 11) => 60.0,
        (Beidou, 11) => 8.0,
        (_, 5 | 18 | 19) => PI * two(-43),
        (_, 6 | 13 | 15 | 17) => PI * two(-31),
        (_, 8) => two(-33),
        (_, 10) => two(-19),
        (_, 3 | 21 | 24) | (Gps, 26) => 1.0,
        _ => return None,
    })
}

/// Returns a bit for each number that is no whole multiple of its unit.
pub fn odd(system: System, numbers: &[f64]) -> u64 {
    let mut bits = 0;
    for (i, x) in numbers.iter().enumerate() {
        let parts = unit(system, i).map_or(0.0, |u| x / u);
        // A number that is nearly 0 has a damaged exponent.
        let lost = parts != 0.0 && parts.round() == 0.0;
        let stray = match (system, i) {
            (System::Glonass, _) | (_, 0..=4 | 6..=17 | 20..) => 1e-6 + DIGITS * parts.abs(),
            _ => 2e-4 + SINGLE * parts.abs(),
        };
        bits |= u64::from(lost || (parts - parts.round()).abs() > stray.min(STRAY)) << i;
    }
    bits
}

/// Returns the bits by which almost no record of a file is odd: one that is was damaged. Some
/// programs write numbers that are no multiples, but then in many records.
pub fn telling(records: impl Iterator<Item = u64> + Clone) -> u64 {
    let count = records.clone().count();
    let few = |bit: &u32| {
        let odd = records.clone().filter(|r| r >> bit & 1 != 0).count();
        count >= LEAST && odd <= 1 + count / 50
    };
    (0..64).filter(few).fold(0, |bits, bit| bits | 1 << bit)
}

/// Returns the index of the record whose correction or rate is far larger than in all others, if
/// one is: its exponent was damaged. Each record has its numbers.
pub fn largest(records: &[&[f64]]) -> Option<usize> {
    // Harmonic corrections of angles, and the rates of anomaly, node and inclination.
    for field in [5, 7, 9, 12, 14, 18, 19] {
        let size = |r: &&[f64]| r.get(field).map_or(0.0, |x| x.abs());
        let most = (0..records.len()).max_by(|a, b| {
            let (a, b) = (size(&records[*a]), size(&records[*b]));
            a.total_cmp(&b)
        })?;
        let others = records.iter().enumerate().filter(|(i, _)| *i != most);
        let next = others.map(|(_, r)| size(r)).fold(0.0, f64::max);
        if records.len() >= 2 * LEAST && size(&records[most]) > LARGER * next {
            return Some(most);
        }
    }
    None
}

/// Returns how many Klobuchar parameters are no whole multiples of their units (IS-GPS-200, table
/// 20-X), as far as four digits tell.
pub fn odd_ionosphere(numbers: &[f64; 8]) -> usize {
    let powers = [-30, -27, -24, -24, 11, 14, 16, 16];
    let odd = |(x, n): (&f64, i32)| {
        let parts = x / 2_f64.powi(n);
        let whole = (parts - parts.round()).abs() <= STRAY + 6e-4 * parts.abs();
        !whole || parts.abs() > 130.0 || (parts != 0.0 && parts.round() == 0.0)
    };
    numbers.iter().zip(powers).filter(|p| odd(*p)).count()
}

#[cfg(test)]
mod tests {
    use super::*;

    #[test]
    fn a_changed_digit_is_no_multiple() {
        // Satellite 1 of 2005-04-02: clock, IODE, Crs, motion and anomaly.
        let sent = [
            3.966595977540e-04,
            1.705302565820e-12,
            0.0,
            140.0,
            -52.1875,
            4.026596389650e-09,
            2.871534990340,
        ];
        assert_eq!(odd(System::Gps, &sent), 0);
        let damaged = [
            (0, 3.966594977540e-04),
            (4, -52.1975),
            (5, 4.026596389650e-89),
            (6, 2.871544990340),
        ];
        for (i, x) in damaged {
            let mut changed = sent;
            changed[i] = x;
            assert_eq!(odd(System::Gps, &changed), 1 << i);
        }
    }

    #[test]
    fn what_many_records_have_is_no_damage() {
        let records = [0b011, 0b001, 0b001, 0b001, 0b101];
        assert_eq!(telling(records.into_iter()) & 0b111, 0b110);
        assert_eq!(telling([0b1, 0b0].into_iter()), 0);
    }

    #[test]
    fn a_correction_far_above_all_others_is_told() {
        let record = |x: f64| {
            let mut numbers = [0.0; 20];
            numbers[12] = x;
            numbers
        };
        let mut all = [2e-8, -9e-8, 1.3e-7, 4e-8, 5e-8, -1.1e-7].map(record);
        let found = |all: &[[f64; 20]]| {
            let records: Vec<&[f64]> = all.iter().map(|r| &r[..]).collect();
            largest(&records)
        };
        assert_eq!(found(&all), None);
        all[3] = record(4e-5);
        assert_eq!(found(&all), Some(3));
        assert_eq!(found(&all[..4]), None);
        assert_eq!(found(&[]), None);
    }

    #[test]
    fn ionosphere_parameters_have_units_too() {
        let sent = [
            1.118e-8, 1.49e-8, -5.96e-8, -5.96e-8, 8.806e4, 1.638e4, -1.966e5, -1.311e5,
        ];
        assert_eq!(odd_ionosphere(&sent), 0);
        let mut changed = sent;
        for x in [1.618e-8, 1.118e-3, 1.118e-18] {
            changed[0] = x;
            assert_eq!(odd_ionosphere(&changed), 1);
        }
    }
}
