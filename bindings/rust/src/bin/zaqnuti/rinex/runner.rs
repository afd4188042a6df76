//! Turns epochs into lines of CSV.

use crate::atmosphere::{range, Direction, Sky};
use crate::orbit::LIGHT;

use super::codes::{Codes, Jump};
use super::left::Left;
use super::lock::{excess, rate, Held, Locks, Passage, VALID};
use super::navigation::Ephemerides;
use super::observations::{Epoch, Observations, Signal};
use super::place::{self, Models, Places, Sight};
use super::rhythm::Rhythm;
use super::signals::{Band, Satellite, System};
use super::time::Moment;
use super::written::{self, Carrier, Frame};

/// The state of a run over one observation file.
pub struct Runner {
    bands: Vec<Band>,
    ephemerides: Ephemerides,
    models: Models,
    places: Places,
    locks: Locks,
    rhythm: Rhythm,
    codes: Codes,
    residuals: Vec<f64>,
    held: Vec<Option<Held>>,
    /// The carriers of the last written epoch, by satellite and band.
    passages: Vec<Option<Passage>>,
    /// The last epoch, if some of its range rates need the next one.
    pending: Option<Lines>,
    sights: Vec<Sight>,
    left: Left,
    text: Vec<u8>,
}

/// The lines of an epoch.
struct Lines {
    time: Moment,
    sky: Sky,
    lines: Vec<(Sight, Carrier)>,
}

/// Returns a satellite's frequency channel: 0 except for GLONASS.
fn channel(ephemerides: &Ephemerides, file: &Observations, of: Satellite) -> Option<i8> {
    match of.system {
        System::Glonass => {
            let (own, sent) = (file.channel(of.number), ephemerides.channel(of));
            let differ = own.is_some() && sent.is_some() && own != sent;
            own.or(sent).filter(|_| !differ)
        }
        _ => Some(0),
    }
}

impl Runner {
    /// Starts a run; `told` is the receiver's position, if it is given.
    pub fn new(
        bands: Vec<Band>,
        ephemerides: Ephemerides,
        models: Models,
        told: Option<[f64; 3]>,
    ) -> Self {
        Self {
            models,
            places: Places::new(told),
            locks: Locks::new(bands.len()),
            rhythm: Rhythm::of(&[]),
            codes: Codes::new(bands.len()),
            residuals: Vec::new(),
            held: Vec::new(),
            passages: vec![None; Satellite::PLACES * bands.len()],
            pending: None,
            sights: Vec::new(),
            left: Left::default(),
            text: Vec::new(),
            bands,
            ephemerides,
        }
    }

    /// Learns the receiver's rhythm from the times of the first epochs.
    pub fn learn(&mut self, times: &[Moment]) {
        self.rhythm = Rhythm::of(times);
    }

    /// Tracks the carriers of an epoch, whether or not it will be written.
    pub fn take(&mut self, file: &Observations, epoch: &Epoch) {
        let channel = |of| channel(&self.ephemerides, file, of);
        self.locks.take(epoch, &self.bands, channel);
    }

    /// Adds an epoch and returns the lines that are complete.
    pub fn lines(&mut self, file: &Observations, epoch: &Epoch) -> &str {
        self.text.clear();
        self.left.epochs += 1;
        let mut sights = std::mem::take(&mut self.sights);
        sights.clear();
        for signal in &epoch.signals {
            sights.extend(self.sight(file, epoch.time, *signal));
        }
        if let Some(sky) = self.sky(file, epoch.time, &mut sights) {
            let clock = place::residuals(&sights, &mut self.residuals);
            match self.rhythm.keeps(epoch.time, clock / LIGHT) {
                true => {
                    self.compare(&mut sights);
                    self.epoch(epoch.time, sky, &sights);
                }
                false => self.left.untimely(),
            }
        }
        self.sights = sights;
        std::str::from_utf8(&self.text).unwrap_or_default()
    }

    /// Returns the remaining lines at the end.
    pub fn rest(&mut self) -> &str {
        self.text.clear();
        if let Some(pending) = self.pending.take() {
            self.write(&pending);
        }
        std::str::from_utf8(&self.text).unwrap_or_default()
    }

    /// Returns what was left out.
    pub fn left(mut self) -> Left {
        self.left.away = self.places.away;
        self.left.jumps = self.locks.jumps();
        self.left
    }

    /// Computes the satellite of a signal, if it has a usable ephemeris.
    fn sight(&mut self, file: &Observations, time: Moment, signal: Signal) -> Option<Sight> {
        let band = self.bands[signal.band];
        let found = self.ephemerides.nearest(signal.satellite, &band, time);
        let found = match found {
            Ok(found) => found,
            Err(lack) => {
                self.left.lacks(lack);
                return None;
            }
        };
        let Some(channel) = channel(&self.ephemerides, file, signal.satellite) else {
            self.left.unknown_channel();
            return None;
        };
        let (state, clock) = found.at(time, signal.pseudorange);
        Some(Sight {
            signal,
            band,
            state,
            clock: clock * LIGHT,
            delay: found.delay(&band) * LIGHT,
            channel,
            to: Direction::default(),
            ionosphere: 0.0,
            troposphere: 0.0,
        })
    }

    /// Finds the receiver's position; nothing if the epoch is left out.
    fn sky(&mut self, file: &Observations, time: Moment, sights: &mut Vec<Sight>) -> Option<Sky> {
        if sights.is_empty() {
            self.left.empty();
            return None;
        }
        let second = time.second_of_week();
        let found = self.places.find(sights, file.place(), &self.models, second);
        match found {
            Ok((sky, off)) => {
                self.left.off += off;
                let some = !sights.is_empty();
                if !some {
                    self.left.empty();
                }
                some.then_some(sky)
            }
            Err(why) => {
                self.left.nowhere(why);
                None
            }
        }
    }

    /// Removes sights whose pseudoranges jump against their carriers.
    fn compare(&mut self, sights: &mut Vec<Sight>) {
        self.held.clear();
        let held = sights.iter().map(|s| self.locks.held(&s.signal));
        self.held.extend(held);
        let found = self.codes.check(sights, &self.held, &self.residuals);
        for (sight, found) in sights.iter().zip(found) {
            match found {
                Some(Jump::Either) => self.locks.jumped(&sight.signal),
                Some(Jump::Pseudorange) => self.left.off += 1,
                Some(Jump::Back) => self.left.spikes += 1,
                None => {}
            }
        }
        let mut found = found.iter();
        sights.retain(|_| found.next() != Some(&Some(Jump::Pseudorange)));
    }

    /// Computes the lines of an epoch. Writes pending lines, and its own if they are complete.
    fn epoch(&mut self, time: Moment, sky: Sky, sights: &[Sight]) {
        let mut lines = Vec::with_capacity(sights.len());
        for sight in sights {
            lines.push((*sight, self.carrier(time, sight, &sky)));
        }
        self.locks.wrote();
        if let Some(pending) = self.pending.take() {
            self.write(&pending);
        }
        let whole = lines.iter().all(|(_, c)| c.known);
        let epoch = Lines { time, sky, lines };
        match whole {
            true => self.write(&epoch),
            false => self.pending = Some(epoch),
        }
    }

    fn write(&mut self, epoch: &Lines) {
        let frame = Frame::new(epoch.time, &epoch.sky);
        for (sight, carrier) in &epoch.lines {
            written::line(&mut self.text, &frame, sight, carrier);
        }
    }

    /// Returns a signal's carrier with its range rate: from Doppler, or else from the phase.
    fn carrier(&mut self, time: Moment, sight: &Sight, sky: &Sky) -> Carrier {
        let (state, metres) = self.locks.state(&sight.signal);
        let now = Passage {
            time,
            carrier: metres + sight.clock,
            satellite: sight.state.place,
        };
        let place = sight.signal.satellite.place() * self.bands.len() + sight.signal.band;
        let before = self.passages[place].filter(|_| state == VALID);
        self.passages[place] = (state & VALID != 0).then_some(now);
        let wavelength = sight.band.wavelength(sight.channel);
        let (rate, known) = match (rate(&sight.signal, wavelength), before) {
            (Some(rate), _) => (rate, true),
            (None, None) => (sky.receding(&sight.state), state & VALID == 0),
            (None, Some(before)) => {
                let range = |x: [f64; 3]| range(sky.place, x);
                let more = excess(&before, &now, range);
                self.tell_before(&sight.signal, more);
                (sky.receding(&sight.state) + more, true)
            }
        };
        Carrier {
            metres,
            state,
            rate,
            known,
        }
    }

    /// Completes a range rate of the pending epoch.
    fn tell_before(&mut self, signal: &Signal, more: f64) {
        let same = |s: &Signal| (s.satellite, s.band) == (signal.satellite, signal.band);
        let lines = self.pending.iter_mut().flat_map(|p| &mut p.lines);
        for (sight, carrier) in lines {
            if !carrier.known && same(&sight.signal) {
                carrier.rate += more;
                carrier.known = true;
            }
        }
    }
}
