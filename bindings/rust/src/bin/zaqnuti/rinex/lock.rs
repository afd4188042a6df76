//! Cycle slips, and the rate of a range.

use crate::orbit::LIGHT;

use super::observations::{Epoch, Signal};
use super::signals::{Band, Satellite};
use super::time::Moment;

/// The bits of `state`: the carrier is valid; it slipped since the previous epoch.
pub const VALID: u8 = 1;
pub const SLIPPED: u8 = 2;

/// The largest jump of a carrier relative to its Doppler and to its code, m.
const BY_DOPPLER: f64 = 2.0;
const BY_CODE: f64 = 15.0;
/// The longest interval over which the mean of two Dopplers predicts a carrier, s.
const LONGEST: f64 = 31.0;

/// A carrier at the last epoch that has it.
#[derive(Clone, Copy)]
struct Seen {
    epoch: u64,
    code: u8,
    lost: u8,
    /// In m.
    carrier: f64,
    pseudorange: f64,
    /// The range rate from Doppler, m/s.
    rate: Option<f64>,
    /// The last epoch in which it was written, and whether it has slipped since.
    written: u64,
    slipped: bool,
}

/// A carrier in m, and whether it was locked since the last written epoch.
#[derive(Clone, Copy)]
pub struct Held {
    pub metres: f64,
    pub locked: bool,
}

/// Tracks the carriers of a file.
pub struct Locks {
    /// By satellite and band.
    seen: Vec<Option<Seen>>,
    bands: usize,
    epoch: u64,
    /// The last epoch that was written.
    written: u64,
    last: Option<Moment>,
    /// The usual interval between two epochs, and how many shorter ones have just been seen.
    interval: f64,
    shorter: u32,
    /// Buffers for the jumps and their medians.
    sorted: Vec<f64>,
    jumps: Vec<[Option<f64>; 2]>,
    /// Jumps without a loss-of-lock indicator.
    untold: u64,
}

/// Returns the upper median.
pub fn median(of: &mut [f64]) -> f64 {
    let middle = of.len() / 2;
    *of.select_nth_unstable_by(middle, f64::total_cmp).1
}

/// Returns the range rate from Doppler; receding is positive.
pub fn rate(signal: &Signal, wavelength: f64) -> Option<f64> {
    signal.doppler.map(|d| -d * wavelength)
}

impl Locks {
    /// Starts with no carriers, for a number of bands.
    pub fn new(bands: usize) -> Self {
        Self {
            seen: vec![None; Satellite::PLACES * bands],
            bands,
            epoch: 0,
            written: 0,
            last: None,
            interval: f64::INFINITY,
            shorter: 0,
            sorted: Vec::new(),
            jumps: Vec::new(),
            untold: 0,
        }
    }

    /// Returns the number of jumps without a loss-of-lock indicator.
    pub fn jumps(&self) -> u64 {
        self.untold
    }

    fn place(&self, signal: &Signal) -> usize {
        signal.satellite.place() * self.bands + signal.band
    }

    /// Adds an epoch, whether or not it will be written.
    pub fn take(
        &mut self,
        epoch: &Epoch,
        bands: &[Band],
        channel: impl Fn(Satellite) -> Option<i8>,
    ) {
        let passed = self.last.map(|last| epoch.time.since(last));
        self.last = Some(epoch.time);
        self.epoch += 1;
        let gap = self.gap(passed);
        let wave = |s: &Signal| channel(s.satellite).map(|c| bands[s.band].wavelength(c));
        let middles = self.measure(epoch, passed.filter(|_| !gap), wave);
        for (i, signal) in epoch.signals.iter().enumerate() {
            let jumped = self.far(i, middles);
            let slipped = self.slips(signal, gap || epoch.failed || jumped);
            self.untold += u64::from(jumped && signal.lost & 1 == 0);
            let Some((cycles, wavelength)) = signal.carrier.zip(wave(signal)) else {
                continue;
            };
            let place = self.place(signal);
            let before = self.seen[place];
            self.seen[place] = Some(Seen {
                epoch: self.epoch,
                code: signal.code,
                lost: signal.lost,
                carrier: cycles * wavelength,
                pseudorange: signal.pseudorange,
                rate: rate(signal, wavelength),
                written: before.map_or(0, |b| b.written),
                slipped: slipped || before.is_some_and(|b| b.slipped),
            });
        }
    }

    /// Checks whether a carrier jumps far beyond the medians.
    fn far(&self, index: usize, middles: [f64; 2]) -> bool {
        let limits = [BY_DOPPLER, BY_CODE];
        (0..2).any(|kind| {
            let jump = self.jumps[index][kind];
            jump.is_some_and(|j| (j - middles[kind]).abs() > limits[kind])
        })
    }

    /// Checks whether a carrier has slipped; `broken` says that something else shows it.
    fn slips(&self, signal: &Signal, broken: bool) -> bool {
        let told = signal.lost & 1 != 0;
        let Some(seen) = self.seen[self.place(signal)] else {
            return told;
        };
        // The half-cycle ambiguity was resolved, or lost.
        let half = (seen.lost ^ signal.lost) & 2 != 0;
        let absent = seen.epoch + 1 != self.epoch;
        told || absent || broken || half || seen.code != signal.code
    }

    /// Checks whether epochs are missing: then the lock may have been lost.
    fn gap(&mut self, passed: Option<f64>) -> bool {
        let Some(passed) = passed else {
            return true;
        };
        // A single short interval, such as that of an event, does not make the others gaps.
        self.shorter = match passed < 0.67 * self.interval {
            true => self.shorter + 1,
            false => 0,
        };
        if self.interval.is_infinite() || self.shorter == 3 {
            self.interval = passed;
        }
        passed > 1.5 * self.interval
    }

    /// Computes each carrier's jump relative to Doppler and code. Returns the two medians.
    fn measure(
        &mut self,
        epoch: &Epoch,
        passed: Option<f64>,
        wave: impl Fn(&Signal) -> Option<f64>,
    ) -> [f64; 2] {
        self.jumps.clear();
        for signal in &epoch.signals {
            let before = self.seen[self.place(signal)].filter(|b| b.epoch + 1 == self.epoch);
            let now = signal.carrier.zip(wave(signal)).zip(before).zip(passed);
            self.jumps.push(match now {
                None => [None; 2],
                Some((((cycles, wavelength), before), passed)) => {
                    let phase = cycles * wavelength - before.carrier;
                    let rates = rate(signal, wavelength).zip(before.rate);
                    let rates = rates.filter(|_| passed <= LONGEST);
                    let by_doppler = rates.map(|(a, b)| phase - 0.5 * (a + b) * passed);
                    let by_code = phase - (signal.pseudorange - before.pseudorange);
                    [by_doppler, Some(by_code)]
                }
            });
        }
        [0, 1].map(|kind| {
            self.sorted.clear();
            self.sorted
                .extend(self.jumps.iter().filter_map(|j| j[kind]));
            match self.sorted.is_empty() {
                true => 0.0,
                false => median(&mut self.sorted),
            }
        })
    }

    /// Returns the state of a carrier in the current epoch, and the carrier in m.
    ///
    /// A slip is reported only if the previous written epoch has the carrier too: otherwise
    /// there is no pair that it could spoil.
    pub fn state(&mut self, signal: &Signal) -> (u8, f64) {
        let (place, epoch, before) = (self.place(signal), self.epoch, self.written);
        match &mut self.seen[place] {
            Some(seen) if seen.epoch == epoch => {
                let paired = seen.written == before && before > 0;
                let slipped = std::mem::take(&mut seen.slipped) && paired;
                seen.written = epoch;
                (VALID | if slipped { SLIPPED } else { 0 }, seen.carrier)
            }
            _ => (0, f64::NAN),
        }
    }

    /// Returns a carrier of the current epoch, before `state` is asked.
    pub fn held(&self, signal: &Signal) -> Option<Held> {
        let seen = self.seen[self.place(signal)].filter(|s| s.epoch == self.epoch)?;
        let paired = seen.written == self.written && self.written > 0;
        Some(Held {
            metres: seen.carrier,
            locked: paired && !seen.slipped,
        })
    }

    /// Marks a carrier as slipped because it jumps.
    pub fn jumped(&mut self, signal: &Signal) {
        let place = self.place(signal);
        if let Some(seen) = &mut self.seen[place] {
            seen.slipped = true;
            self.untold += 1;
        }
    }

    /// Marks the current epoch as written.
    pub fn wrote(&mut self) {
        self.written = self.epoch;
    }
}

/// A carrier in a written epoch, for range rates without Doppler.
#[derive(Clone, Copy)]
pub struct Passage {
    pub time: Moment,
    /// The carrier corrected for the satellite's clock, m.
    pub carrier: f64,
    /// The satellite's position.
    pub satellite: [f64; 3],
}

/// Returns the receiver's own part of a range rate, its motion and its clock drift, in m/s.
pub fn excess(before: &Passage, now: &Passage, range: impl Fn([f64; 3]) -> f64) -> f64 {
    let moved = range(now.satellite) - range(before.satellite);
    let more = (now.carrier - before.carrier - moved) / now.time.since(before.time);
    match more.abs() < LIGHT {
        true => more,
        false => 0.0,
    }
}

#[cfg(test)]
mod tests {
    use super::super::signals::{chosen, System};
    use super::*;

    /// Returns the states of eight satellites; `change` edits each epoch.
    fn states(epochs: usize, change: impl Fn(usize, &mut Epoch)) -> Vec<Vec<u8>> {
        thinned(epochs, 1, change)
    }

    /// Writes only one of `every` epochs.
    fn thinned(epochs: usize, every: usize, change: impl Fn(usize, &mut Epoch)) -> Vec<Vec<u8>> {
        let bands = chosen(Some("G1"), None).ok().unwrap();
        let wavelength = bands[0].wavelength(0);
        let mut locks = Locks::new(1);
        let mut out = Vec::new();
        for i in 0..epochs {
            let signal = |number: u8| {
                let rate = 100.0 * f64::from(number);
                let range = 2.2e7 + rate * i as f64;
                Signal {
                    satellite: Satellite {
                        system: System::Gps,
                        number,
                    },
                    band: 0,
                    code: b'C',
                    pseudorange: range,
                    carrier: Some(range / wavelength),
                    lost: 0,
                    doppler: Some(-rate / wavelength),
                }
            };
            let mut epoch = Epoch {
                time: Moment::of_week(2160, i as f64),
                failed: false,
                signals: (1..9).map(signal).collect(),
            };
            change(i, &mut epoch);
            locks.take(&epoch, &bands, |_| Some(0));
            if i % every == 0 {
                let states = epoch.signals.iter().map(|s| locks.state(s).0);
                out.push(states.collect());
                locks.wrote();
            }
        }
        out
    }

    fn slips(of: &[Vec<u8>]) -> Vec<usize> {
        let slipped = |s: &Vec<u8>| s.iter().filter(|s| **s & SLIPPED != 0).count();
        of.iter().map(slipped).collect()
    }

    #[test]
    fn a_carrier_that_goes_on_is_valid() {
        let all = states(5, |_, _| {});
        assert!(all.iter().flatten().all(|s| *s == VALID));
        let none = states(3, |_, e| e.signals[2].carrier = None);
        assert!(none.iter().all(|s| s[2] == 0 && s[3] == VALID));
    }

    #[test]
    fn slips_are_seen() {
        let indicator = |i: usize, e: &mut Epoch| e.signals[1].lost = u8::from(i == 2);
        assert_eq!(slips(&states(5, indicator)), [0, 0, 1, 0, 0]);
        let half = |i: usize, e: &mut Epoch| e.signals[1].lost = if i < 2 { 2 } else { 0 };
        assert_eq!(slips(&states(5, half)), [0, 0, 1, 0, 0]);
        let power = |i: usize, e: &mut Epoch| e.failed = i == 3;
        assert_eq!(slips(&states(5, power)), [0, 0, 0, 8, 0]);
        let code = |i: usize, e: &mut Epoch| e.signals[0].code = if i == 2 { b'X' } else { b'C' };
        assert_eq!(slips(&states(5, code)), [0, 0, 1, 1, 0]);
    }

    #[test]
    fn jumps_are_seen_against_the_other_satellites() {
        let add = |e: &mut Epoch, k: usize, cycles: f64| {
            let carrier = &mut e.signals[k].carrier;
            *carrier = carrier.map(|c| c + cycles);
        };
        // Twelve cycles are 2.3 m.
        let one = |i: usize, e: &mut Epoch| add(e, 4, if i >= 2 { 12.0 } else { 0.0 });
        assert_eq!(slips(&states(5, one)), [0, 0, 1, 0, 0]);
        // A step of the receiver's clock moves all carriers alike.
        let all = |i: usize, e: &mut Epoch| {
            (0..8).for_each(|k| add(e, k, if i >= 2 { 1e6 } else { 0.0 }));
        };
        assert_eq!(slips(&states(5, all)), [0; 5]);
        let code = |i: usize, e: &mut Epoch| {
            e.signals.iter_mut().for_each(|s| s.doppler = None);
            e.signals[3].pseudorange += if i == 2 { 30.0 } else { 0.0 };
        };
        assert_eq!(slips(&states(5, code)), [0, 0, 1, 1, 0]);
    }

    #[test]
    fn gaps_are_seen() {
        let late = |i: usize, e: &mut Epoch| {
            e.time = e.time.plus(if i >= 3 { 5.0 } else { 0.0 });
        };
        assert_eq!(slips(&states(5, late)), [0, 0, 0, 8, 0]);
        // One epoch right after another is no reason to call all others late.
        let early = |i: usize, e: &mut Epoch| {
            e.time = e.time.plus(if i == 2 { -0.9 } else { 0.0 });
            e.signals.iter_mut().for_each(|s| s.doppler = None);
        };
        assert_eq!(slips(&states(6, early)), [0, 0, 0, 8, 0, 0]);
        // Without a carrier in the previous epoch there is no pair.
        let absent =
            |i: usize, e: &mut Epoch| e.signals.retain(|s| i != 2 || s.satellite.number > 1);
        assert_eq!(slips(&states(5, absent)), [0; 5]);
        // The carrier was lost between two written epochs.
        assert_eq!(slips(&thinned(7, 4, absent)), [0, 1]);
        let lost = |i: usize, e: &mut Epoch| e.signals[1].lost = u8::from(i == 2);
        assert_eq!(slips(&thinned(9, 4, lost)), [0, 1, 0]);
    }

    #[test]
    fn rates_follow_the_phase() {
        let at = |tow: f64, carrier: f64, x: f64| Passage {
            time: Moment::of_week(0, tow),
            carrier,
            satellite: [x, 0.0, 0.0],
        };
        let range = |[x, _, _]: [f64; 3]| x;
        // The carrier changes by 2 m/s more than the geometry.
        let more = excess(&at(0.0, 0.0, 0.0), &at(10.0, 90.0, 70.0), range);
        assert_eq!(more, 2.0);
    }
}
