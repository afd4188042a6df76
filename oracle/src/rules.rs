//! docs/REFUSALS.md: numbers 2 to 9 of a displacement and a fix, in checking
//! order, 13 between 4 and 5, and 15 of a displacement ahead of 7. Used only to say which number a refusal is, and where the Rust is
//! not asked.

use crate::estimate::{Between, Displacement, Fix};
use drifters_core::frames::Ecef;
use drifters_gnss::tdcp::{geometry, Carrier};

/// The most records of an epoch.
pub const RECORDS: usize = 64;
/// The most rounds.
pub const ROUNDS: usize = 50;
/// The longest interval, in seconds.
pub const INTERVAL: f64 = 604_800.0;
/// The largest magnitude of a setting, a coordinate or a float of a record.
pub const LIMIT: f64 = 1e9;
/// The last week.
pub const WEEK: u32 = 15_000;
/// The start of the week after it, in nanoseconds.
pub const LAST: u64 = 15_001 * 604_800_000_000_000;

/// A week and a time of week that 13 lets pass.
pub fn is_time(week: u32, tow: f64) -> bool {
    week <= WEEK && (0.0..604_800.0).contains(&tow)
}

/// A time handed in that 13 lets pass.
pub fn is_dated(nanos: u64) -> bool {
    nanos <= LAST
}

/// Finite, and at most 1e9 in magnitude.
fn within(x: f64) -> bool {
    x.is_finite() && x.abs() <= LIMIT
}

/// From -90 to 90 degrees.
fn is_elevation(x: f64) -> bool {
    (-90.0..=90.0).contains(&x)
}

/// A carrier whose floats 4 lets pass: an `adr` that is not finite makes it unusable and nothing more.
fn carrier_within(c: &Carrier) -> bool {
    let adr = !c.adr.is_finite() || within(c.adr);
    adr && c.satellite.iter().all(|&x| within(x)) && is_elevation(c.elevation) && within(c.rate)
}

/// State bit 1 set, bits 2 and 4 clear, `adr` finite.
fn usable(c: &Carrier) -> bool {
    let bit = |value: i32| c.state & value != 0;
    bit(1) && !bit(2) && !bit(4) && c.adr.is_finite()
}

/// Equal constellation, svid and band.
fn same(p: &Carrier, c: &Carrier) -> bool {
    (p.constellation, p.svid, p.band) == (c.constellation, c.svid, c.band)
}

/// Each current carrier that has a previous one, with that one.
fn paired(input: &Displacement) -> impl Iterator<Item = (&Carrier, &Carrier)> {
    let rows = input.current.iter();
    rows.filter(|c| usable(c) && c.elevation >= input.settings.mask)
        .filter_map(|c| {
            let mut previous = input.previous.iter();
            let p = previous.find(|p| usable(p) && same(p, c))?;
            Some((c, p))
        })
}

/// The constellation and the detector of each pair.
pub fn pairs(input: &Displacement) -> Vec<(u8, f64)> {
    paired(input)
        .map(|(c, p)| {
            let detector = (c.adr - p.adr) - 0.5 * (c.rate + p.rate) * input.dt;
            (c.constellation, detector)
        })
        .collect()
}

/// 15: the range is zero or not finite.
pub fn on_receiver(range: f64) -> bool {
    range == 0.0 || !range.is_finite()
}

/// 15 of a displacement: a pair in order, the current satellite before the previous.
fn met(input: &Displacement) -> bool {
    let [x, y, z] = input.receiver;
    let range = |c: &Carrier| geometry(c.satellite, Ecef::new(x, y, z)).1;
    paired(input).any(|(c, p)| on_receiver(range(c)) || on_receiver(range(p)))
}

/// The element at place len/2 of the detectors in totalOrder.
pub fn centre(pairs: &[(u8, f64)]) -> f64 {
    let mut sorted: Vec<f64> = pairs.iter().map(|p| p.1).collect();
    sorted.sort_by(f64::total_cmp);
    sorted[sorted.len() / 2]
}

/// 8 and 9: too few rows for their clock slots, or too many slots; constellations from 7 on share one.
fn slots(kept: impl Iterator<Item = u8>) -> Option<u8> {
    let mut seen = [false; 8];
    let rows = kept.map(|c| seen[usize::from(c.min(7))] = true).count();
    let slots = seen.iter().filter(|&&s| s).count();
    if rows < 4 + slots {
        Some(8)
    } else if slots > 6 {
        Some(9)
    } else {
        None
    }
}

/// 2 to 4 of a displacement.
fn refused(input: &Displacement) -> Option<u8> {
    let set = &input.settings;
    if input.previous.len() > RECORDS || input.current.len() > RECORDS {
        return Some(2);
    }
    let settings = [set.screen, set.sigma_a, set.sigma_b, set.huber, set.mask];
    if !settings.iter().all(|&x| within(x)) || set.iterations > ROUNDS {
        return Some(3);
    }
    let mut records = input.previous.iter().chain(&input.current);
    if !records.all(carrier_within) || !input.receiver.iter().all(|&x| within(x)) {
        return Some(4);
    }
    None
}

/// 5 to 9 of a displacement.
fn unmoved(input: &Displacement) -> Option<u8> {
    if !(input.dt > 0.0 && input.dt <= INTERVAL) {
        return Some(5);
    }
    if met(input) {
        return Some(15);
    }
    if pairs(input).len() < 6 {
        return Some(7);
    }
    slots(kept(input).into_iter())
}

/// The constellations of the pairs that the screen keeps; there is at least one pair.
fn kept(input: &Displacement) -> Vec<u8> {
    let pairs = pairs(input);
    let centre = centre(&pairs);
    let kept = pairs
        .iter()
        .filter(|p| (p.1 - centre).abs() < input.settings.screen);
    kept.map(|p| p.0).collect()
}

/// The number of a displacement, but for 10.
pub fn displacement(input: &Displacement) -> Option<u8> {
    refused(input).or_else(|| unmoved(input))
}

/// The number of a displacement between two times, but for 10.
pub fn between(input: &Between) -> Option<u8> {
    let undated = !input.times.iter().all(|&t| is_dated(t));
    let first = refused(&input.displacement).or(undated.then_some(13));
    first.or_else(|| unmoved(&input.displacement))
}

/// The number of a city displacement of which `left` is left, but for 10.
pub fn city(given: &Displacement, left: &Displacement) -> Option<u8> {
    let first = refused(given).or_else(|| unmoved(left));
    first.or_else(|| {
        let kept = kept(left);
        (!kept.contains(&1) || !kept.contains(&6)).then_some(20)
    })
}

/// The number of a fix, but for 10, 14 and 15.
pub fn fix(input: &Fix) -> Option<u8> {
    let set = &input.settings;
    if input.observations.len() > RECORDS {
        return Some(2);
    }
    let settings = [set.sigma_a, set.sigma_b, set.huber, set.mask];
    if !settings.iter().all(|&x| within(x)) || !(1..=ROUNDS).contains(&set.iterations) {
        return Some(3);
    }
    let passes = input.observations.iter().all(|o| {
        within(o.pseudorange) && o.satellite.iter().all(|&x| within(x)) && is_elevation(o.elevation)
    });
    if !passes || !input.guess.iter().all(|&x| within(x)) {
        return Some(4);
    }
    let rows = input.observations.iter();
    let kept = rows.filter(|o| o.elevation >= set.mask);
    slots(kept.map(|o| o.constellation))
}
