//! A broadcast ephemeris: a satellite's orbit, clock and group delays.

use crate::orbit::{Glonass, Kepler, State, LIGHT};

use super::signals::{Band, System};
use super::time::Moment;

/// The orbit of an ephemeris.
#[derive(Clone, Debug, PartialEq)]
pub enum Orbit {
    Kepler(Kepler),
    Glonass(Glonass),
}

/// A satellite's broadcast ephemeris.
#[derive(Clone, Debug, PartialEq)]
pub struct Ephemeris {
    pub orbit: Orbit,
    /// The reference times of the orbit and of the clock.
    pub toe: Moment,
    pub toc: Moment,
    /// The clock's error in s, s/s and s/s².
    pub clock: [f64; 3],
    /// The group delays as the file has them, s.
    pub delays: [f64; 2],
    /// Whether a Galileo clock is the F/NAV one, for E5a and E1.
    pub fnav: bool,
    pub healthy: bool,
    /// The GLONASS frequency channel.
    pub channel: i8,
}

impl Ephemeris {
    /// Returns the clock error in s, without relativity.
    fn clock(&self, at: Moment) -> f64 {
        let since = at.since(self.toc);
        let [a, b, c] = self.clock;
        a + b * since + c * since * since
    }

    /// Returns the transmission time of a signal, given its time of reception and pseudorange.
    fn sent(&self, received: Moment, pseudorange: f64) -> Moment {
        let by_its_clock = received.plus(-pseudorange / LIGHT);
        let mut at = by_its_clock;
        for _ in 0..2 {
            at = by_its_clock.plus(-self.clock(at));
        }
        at
    }

    /// Returns the satellite's state and its clock error in s, with relativity.
    pub fn state(&self, at: Moment) -> (State, f64) {
        match &self.orbit {
            Orbit::Kepler(orbit) => {
                let (state, relativity) = orbit.at(at.since(self.toe));
                (state, self.clock(at) + relativity)
            }
            // The GLONASS clock rate includes relativity.
            Orbit::Glonass(orbit) => (orbit.at(at.since(self.toe)), self.clock(at)),
        }
    }

    /// Checks that the next ephemeris of the satellite agrees halfway between the two; nothing
    /// where they are too far apart in time, unhealthy, or of different kinds.
    pub fn agrees(&self, next: &Self) -> Option<bool> {
        // Those of a day of broadcast orbits are within 8 m and 5 m of clock, of GLONASS 16 m and 9 m.
        let (longest, far) = match self.orbit {
            Orbit::Kepler(_) => (7_300.0, 25.0),
            Orbit::Glonass(_) => (1_900.0, 60.0),
        };
        let gap = next.toe.since(self.toe);
        let same = self.healthy && next.healthy && self.fnav == next.fnav;
        if !same || gap > longest {
            return None;
        }
        let middle = self.toe.plus(gap / 2.0);
        let ((a, own), (b, other)) = (self.state(middle), next.state(middle));
        let square: f64 = (0..3).map(|i| (a.place[i] - b.place[i]).powi(2)).sum();
        Some(square.sqrt() <= far && ((own - other) * LIGHT).abs() <= far)
    }

    /// Returns the state and the clock error at the transmission of a signal.
    pub fn at(&self, received: Moment, pseudorange: f64) -> (State, f64) {
        self.state(self.sent(received, pseudorange))
    }

    /// Returns the group delay of a signal in s, to be subtracted from its pseudorange.
    pub fn delay(&self, band: &Band) -> f64 {
        let [first, second] = self.delays;
        let slow = band.slowing(0);
        match (band.system, band.digit) {
            // IS-GPS-200, 20.3.3.3.3.2.
            (System::Gps, _) => slow * first,
            (System::Galileo, b'5') => slow * first,
            (System::Galileo, b'7') => slow * second,
            (System::Galileo, _) if self.fnav => first,
            (System::Galileo, _) => second,
            // The BeiDou clock refers to B3.
            (System::Beidou, b'2') => first,
            (System::Beidou, b'7') => second,
            (System::Beidou, _) => 0.0,
            (System::Glonass, b'2') => first,
            (System::Glonass, _) => 0.0,
        }
    }
}
