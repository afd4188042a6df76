//! Broadcast orbits against the forces on a satellite, by which damaged corrections are told.

use crate::forces::{Bodies, TURN};
use crate::orbit::{Glonass, Kepler};

use super::ephemeris::{Ephemeris, Orbit};
use super::lock::median;
use super::signals::System;
use super::time::Moment;

/// The times from the reference time at which an orbit is compared, s.
const TIMES: [f64; 9] = [
    -3_600.0, -2_700.0, -1_800.0, -900.0, 0.0, 900.0, 1_800.0, 2_700.0, 3_600.0,
];
/// The root of the semi-major axis below which a satellite is no geosynchronous one.
const MEDIUM: f64 = 5_700.0;
/// The least and the greatest number of orbits from which the earth's axis is found.
const LEAST: usize = 4;
const MOST: usize = 100;
/// The mean difference below which no correction of the radius is far off, m.
const CALM: f64 = 0.7;
/// The greatest difference of luni-solar accelerations, whose unit is 0.93e-6, m/s².
const PULL: f64 = 1.8e-6;

/// The components of acceleration that an orbit has beyond the forces, m/s², and what a tilt of the
/// earth's axis by 1 rad towards x and towards y adds to them.
struct Excess {
    beyond: Vec<f64>,
    tilts: [Vec<f64>; 2],
}

fn dot(a: &[f64], b: &[f64]) -> f64 {
    a.iter().zip(b).map(|(x, y)| x * y).sum()
}

impl Excess {
    fn of(orbit: &Kepler, toe: Moment) -> Self {
        let (mut beyond, mut tilts) = (Vec::new(), [Vec::new(), Vec::new()]);
        for since in TIMES {
            let state = orbit.at(since).0;
            let velocity = |s: f64| orbit.at(since + s).0.velocity;
            let (before, after) = (velocity(-0.5), velocity(0.5));
            let forces = Bodies::at(toe.plus(since).seconds()).acceleration(&state);
            beyond.extend((0..3).map(|i| after[i] - before[i] - forces[i]));
            let ([x, y, z], [vx, vy, vz]) = (state.place, state.velocity);
            let [x, y, z] = [x, y, z].map(|a| a * TURN * TURN);
            let [vx, vy, vz] = [vx, vy, vz].map(|a| 2.0 * a * TURN);
            tilts[0].extend([-z, vz, -vy - x]);
            tilts[1].extend([-vz, -z, vx - y]);
        }
        Self { beyond, tilts }
    }

    /// Returns the tilt of the axis that fits best.
    fn tilt(&self) -> [f64; 2] {
        let [p, q] = &self.tilts;
        let (a, b, c) = (dot(p, p), dot(p, q), dot(q, q));
        let (x, y) = (dot(p, &self.beyond), dot(q, &self.beyond));
        let whole = a * c - b * b;
        [(c * x - b * y) / whole, (a * y - b * x) / whole]
    }

    /// Takes the effect of a tilted axis away.
    fn without(mut self, tilt: [f64; 2]) -> Vec<f64> {
        for (i, b) in self.beyond.iter_mut().enumerate() {
            *b -= tilt[0] * self.tilts[0][i] + tilt[1] * self.tilts[1][i];
        }
        self.beyond
    }
}

/// Returns the orbit of a healthy satellite, unless it is geosynchronous or integrated.
fn medium(of: &Ephemeris) -> Option<&Kepler> {
    match &of.orbit {
        Orbit::Kepler(orbit) if of.healthy && orbit.root < MEDIUM => Some(orbit),
        _ => None,
    }
}

/// Returns the tilt of the earth's axis, which all orbits share: the median of some of theirs.
pub fn tilt<'a>(all: impl Iterator<Item = &'a Ephemeris>) -> Option<[f64; 2]> {
    let all: Vec<_> = all.filter_map(|e| Some((medium(e)?, e.toe))).collect();
    let some = all.iter().step_by(all.len() / MOST + 1);
    let tilts = some.map(|(orbit, toe)| Excess::of(orbit, *toe).tilt());
    let (mut x, mut y): (Vec<f64>, Vec<f64>) = tilts.map(|[x, y]| (x, y)).unzip();
    (x.len() >= LEAST).then(|| [median(&mut x), median(&mut y)])
}

/// Checks whether an orbit contradicts the forces. In four days of GPS broadcasts orbits are within
/// 1.5 m, and their cosine and sine corrections of the radius within 1.5 m and 2.2 m.
pub fn strained(of: &Ephemeris, system: System, tilt: Option<[f64; 2]>) -> bool {
    let [limit, cosine, sine] = match system {
        System::Gps => [1.8, 1.9, 2.6],
        _ => [3.0, 3.0, 4.0],
    };
    let (orbit, tilt) = match (&of.orbit, medium(of).zip(tilt)) {
        (Orbit::Glonass(orbit), _) => return pulled(orbit, of.toe),
        (_, Some(both)) => both,
        (_, None) => return false,
    };
    let beyond = Excess::of(orbit, of.toe).without(tilt);
    // One metre of a correction of the radius is an acceleration of about 7 n².
    let metre = 7.0 * orbit.rate().powi(2);
    let mean = (dot(&beyond, &beyond) / beyond.len() as f64).sqrt() / metre;
    if mean < CALM {
        return false;
    }
    let corrected = |part: usize| {
        let mut other = *orbit;
        other.radius[part] += 1.0;
        let other = Excess::of(&other, of.toe).without(tilt);
        let step: Vec<f64> = other.iter().zip(&beyond).map(|(o, b)| o - b).collect();
        (dot(&step, &beyond) / dot(&step, &step)).abs()
    };
    mean > limit || corrected(0) > cosine || corrected(1) > sine
}

/// Checks whether a GLONASS message's luni-solar acceleration is not that of the sun and the moon.
fn pulled(orbit: &Glonass, toe: Moment) -> bool {
    let pull = Bodies::at(toe.seconds()).pull(orbit.start.place);
    pull.iter()
        .zip(orbit.pull)
        .any(|(a, b)| (a - b).abs() > PULL)
}

#[cfg(test)]
mod tests {
    use super::*;
    use crate::orbit::State;

    #[test]
    fn luni_solar_accelerations_are_those_of_the_sun_and_the_moon() {
        // Satellites 2 and 3 of 2009-04-01, 00:15.
        let toe = Moment::of_week(1525, 260_115.0);
        let sent = [
            (
                [9_364_739.257_81, -15_908_797.363_3, -17_614_389.648_4],
                [0.0, 1.862_645e-6, 1.862_645e-6],
            ),
            (
                [2_562_112.304_69, -25_304_867.675_8, -1_941_644.042_97],
                [-1.862_645e-6, -9.313_226e-7, 2.793_968e-6],
            ),
        ];
        for (place, pull) in sent {
            let velocity = [0.0; 3];
            let orbit = |pull| Glonass::new(State { place, velocity }, pull);
            assert!(!pulled(&orbit(pull), toe));
            let changed = pull.map(|p| p * 10.0);
            assert!(pulled(&orbit(changed), toe));
        }
    }
}
