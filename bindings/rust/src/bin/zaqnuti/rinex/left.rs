//! Counts of the signals and epochs that are left out, and the messages about them.

use crate::fault::{said, tell, Run};

use super::navigation::Lack;
use super::place::Nowhere;

/// Signals and epochs left out, by reason.
#[derive(Default)]
pub struct Left {
    /// All epochs, including those left out.
    pub epochs: u64,
    empty: u64,
    nowhere: u64,
    aloft: u64,
    untimely: u64,
    missing: u64,
    old: u64,
    unhealthy: u64,
    channel: u64,
    /// Satellites of systems that the header does not list.
    pub unlisted: u64,
    /// Signals whose pseudoranges disagree with the others.
    pub off: u64,
    /// Epochs whose fix is far from the header's position.
    pub away: u64,
    /// Pseudoranges that jump for one epoch, and are not left out.
    pub spikes: u64,
    /// Carriers marked as slipped because of a jump.
    pub jumps: u64,
}

/// Joins the reasons that occurred, with their counts.
fn list(parts: &[(u64, &str)]) -> String {
    let some = parts.iter().filter(|(n, _)| *n > 0);
    let words: Vec<String> = some.map(|(n, why)| format!("{n} {why}")).collect();
    words.join(", ")
}

impl Left {
    /// Counts a signal whose satellite has no usable ephemeris.
    pub fn lacks(&mut self, why: Lack) {
        match why {
            Lack::None => self.missing += 1,
            Lack::Old => self.old += 1,
            Lack::Unhealthy => self.unhealthy += 1,
        }
    }

    /// Counts a GLONASS signal whose channel is unknown.
    pub fn unknown_channel(&mut self) {
        self.channel += 1;
    }

    /// Counts an epoch without a usable satellite.
    pub fn empty(&mut self) {
        self.empty += 1;
    }

    /// Counts an epoch in which the receiver's position is unknown.
    pub fn nowhere(&mut self, why: Nowhere) {
        match why {
            Nowhere::Unknown => self.nowhere += 1,
            Nowhere::Aloft => self.aloft += 1,
        }
    }

    /// Counts an epoch whose time is not of the receiver's rhythm.
    pub fn untimely(&mut self) {
        self.untimely += 1;
    }

    /// Prints the counts on standard error. Returns whether every epoch was written.
    pub fn told(&self, name: &str) -> Run<bool> {
        let signals = list(&[
            (self.missing, "without an ephemeris"),
            (self.old, "whose ephemerides are too old or too new"),
            (self.unhealthy, "of unhealthy satellites"),
            (
                self.channel,
                "of an unknown or contradictory GLONASS channel",
            ),
            (self.unlisted, "of systems that the header does not list"),
            (self.off, "whose pseudoranges disagree with the others"),
        ]);
        if !signals.is_empty() {
            tell(&format!("{name}: signals left out: {signals}"));
        }
        if self.jumps > 0 {
            let why = "jump relative to code or Doppler, and are marked as slipped";
            tell(&format!("{name}: {} carriers {why}", self.jumps));
        }
        if self.spikes > 0 {
            let why = "jump relative to their carriers for one epoch";
            tell(&format!("{name}: {} pseudoranges {why}", self.spikes));
        }
        if self.away > 0 {
            let why = "the fix is more than 20 m from the header's position and replaces it";
            tell(&format!("{name}: in {} epochs {why}", self.away));
        }
        self.epochs_told(name)
    }

    fn epochs_told(&self, name: &str) -> Run<bool> {
        let epochs = list(&[
            (self.empty, "without a usable satellite"),
            (self.nowhere, "without a position of the receiver"),
            (self.aloft, "whose fix is not near the ground"),
            (self.untimely, "whose time is out of step with the others"),
        ]);
        let left = self.empty + self.nowhere + self.aloft;
        let (all, out) = (self.epochs, left + self.untimely);
        if all == 0 {
            return said(format!("{name}: no epochs"));
        }
        if all == out {
            return said(format!("{name}: nothing to write: epochs {epochs}"));
        }
        if out > 0 {
            tell(&format!("{name}: {out} of {all} epochs left out: {epochs}"));
        }
        Ok(out == 0)
    }
}
