//! The receiver's position: given, from the header, or a fix by the library.

use zaqnuti::wls::{solve_full, Observation, Settings};
use zaqnuti::{Ecef, RECORDS};

use crate::atmosphere::{range, Direction, Klobuchar, Sky};
use crate::orbit::State;

use super::lock::median;
use super::observations::Signal;
use super::signals::{Band, SYSTEMS};
use super::stray;

/// The greatest distance of a fix from the header's position at which the latter is used, m.
const NEAR: f64 = 20.0;
/// The distance over which elevations and delays are taken as constant in a fix, m.
const SAME: f64 = 100.0;
/// Plausible heights above the ellipsoid, m.
const HEIGHTS: std::ops::Range<f64> = -2_000.0..100_000.0;
/// The bounds of the outlier limit for pseudoranges, m.
const OFF: (f64, f64) = (30.0, 100.0);

/// A signal with its satellite's state and modelled delays.
#[derive(Clone, Copy)]
pub struct Sight {
    pub signal: Signal,
    pub band: Band,
    pub state: State,
    /// The satellite's clock, to be added to ranges, and the signal's group delay, m.
    pub clock: f64,
    pub delay: f64,
    pub channel: i8,
    pub to: Direction,
    pub ionosphere: f64,
    pub troposphere: f64,
}

impl Sight {
    /// Returns the pseudorange corrected for clock, group delay and models.
    fn range(&self) -> f64 {
        let models = self.ionosphere + self.troposphere;
        self.signal.pseudorange - self.delay + self.clock - models
    }

    /// Returns the corrected pseudorange minus the geometric range.
    pub fn miss(&self) -> f64 {
        self.range() - self.to.range
    }

    /// Returns how much noisier the pseudorange is than at the zenith.
    pub fn noisier(&self) -> f64 {
        0.5 + 0.5 / self.to.elevation.sin().max(0.1)
    }

    fn observation(&self, elevation: f64) -> Observation {
        Observation {
            constellation: self.band.system.constellation(),
            band: self.band.megahertz(),
            svid: u16::from(self.signal.satellite.number),
            pseudorange: self.range(),
            modelled: self.ionosphere + self.troposphere,
            satellite: self.state.place,
            elevation,
        }
    }
}

/// The Klobuchar parameters, or nothing where delays are not modelled.
pub type Models = Option<Klobuchar>;

/// Computes directions and delays at a position.
pub fn look(sights: &mut [Sight], sky: &Sky, models: &Models, second: f64) {
    for sight in sights {
        sight.to = sky.direction(sight.state.place);
        if let Some(numbers) = models {
            let l1 = sky.ionosphere(&sight.to, numbers, second);
            sight.ionosphere = l1 * sight.band.slowing(sight.channel);
            sight.troposphere = sky.troposphere(&sight.to);
        }
    }
}

/// Computes the ranges from a position near that of the directions.
fn measure(sights: &mut [Sight], at: [f64; 3]) {
    for sight in sights {
        sight.to.range = range(at, sight.state.place);
    }
}

/// Why an epoch has no position.
#[derive(Clone, Copy, PartialEq)]
pub enum Nowhere {
    /// There was no fix so far, and no position is given.
    Unknown,
    /// The fix is not near the ground.
    Aloft,
}

/// The receiver's positions, epoch by epoch.
pub struct Places {
    /// The option `--at`, used throughout.
    pub told: Option<[f64; 3]>,
    /// The sky at the last position.
    sky: Option<Sky>,
    /// Where the epoch's directions and delays were computed.
    looked: Option<[f64; 3]>,
    /// Epochs whose fix is far from the header's position.
    pub away: u64,
    rows: Vec<Observation>,
    settings: Settings,
}

fn apart([a, b, c]: [f64; 3], [x, y, z]: [f64; 3]) -> f64 {
    ((a - x).powi(2) + (b - y).powi(2) + (c - z).powi(2)).sqrt()
}

impl Places {
    pub fn new(told: Option<[f64; 3]>) -> Self {
        Self {
            told,
            sky: None,
            looked: None,
            away: 0,
            rows: Vec::new(),
            settings: Settings::default(),
        }
    }

    /// Computes a fix. Without a starting position, elevations are unknown and taken as 90 degrees.
    fn fix(&mut self, sights: &[Sight], from: Option<[f64; 3]>) -> Option<[f64; 3]> {
        self.rows.clear();
        let rows = sights.iter().map(|s| match from {
            Some(_) => s.observation(s.to.elevation.to_degrees()),
            None => s.observation(90.0),
        });
        self.rows.extend(rows.take(RECORDS));
        let [x, y, z] = from.unwrap_or_default();
        let found = solve_full(&self.rows, Ecef::new(x, y, z), &self.settings);
        found.ok().map(|s| s.position.coordinates())
    }

    /// Finds the receiver's position and computes the directions of all sights. Removes sights
    /// whose pseudoranges disagree with the others, and returns their number too.
    pub fn find(
        &mut self,
        sights: &mut Vec<Sight>,
        header: Option<[f64; 3]>,
        models: &Models,
        second: f64,
    ) -> Result<(Sky, u64), Nowhere> {
        self.looked = None;
        if let Some(told) = self.told {
            let sky = self.stay(told, sights, models, second);
            return Ok((sky, screen(sights)));
        }
        let header = header.filter(|h| ground(*h));
        let last = self.sky.map(|s| s.place);
        let fixed = self.fixed(sights, last.or(header), models, second);
        let before = sights.len();
        let at = match self.vote(sights, fixed, [last, header], models, second) {
            Some(at) => at,
            None if fixed.is_some() => return Err(Nowhere::Aloft),
            None => return Err(Nowhere::Unknown),
        };
        let at = self.without_strays(sights, at, models, second);
        let near = header.filter(|h| apart(*h, at) <= NEAR);
        self.away += u64::from(header.is_some() && near.is_none());
        let sky = self.stay(near.unwrap_or(at), sights, models, second);
        screen(sights);
        Ok((sky, (before - sights.len()) as u64))
    }

    /// Computes the fix of an epoch, repeating it where it is far from the guess.
    fn fixed(
        &mut self,
        sights: &mut [Sight],
        guess: Option<[f64; 3]>,
        models: &Models,
        second: f64,
    ) -> Option<[f64; 3]> {
        let (mut place, mut fixed) = (guess, None);
        for _ in 0..4 {
            if let Some(at) = place {
                self.stay(at, sights, models, second);
            }
            fixed = self.fix(sights, place);
            let new = fixed.filter(|new| ground(*new))?;
            match place {
                Some(old) if apart(new, old) <= SAME => break,
                _ => place = fixed,
            }
        }
        fixed
    }

    /// Returns the fix, unless the pseudoranges fit another position better: then removes the
    /// outliers there and repeats the fix.
    fn vote(
        &mut self,
        sights: &mut Vec<Sight>,
        fixed: Option<[f64; 3]>,
        others: [Option<[f64; 3]>; 2],
        models: &Models,
        second: f64,
    ) -> Option<[f64; 3]> {
        let fixed = fixed.filter(|f| ground(*f));
        let mut against = |at: [f64; 3]| {
            match self.looked {
                Some(place) if apart(place, at) <= SAME => measure(sights, at),
                _ => drop(self.stay(at, sights, models, second)),
            }
            missing(sights)
        };
        let mut best = fixed.map(|at| (against(at), at));
        for other in others.into_iter().flatten() {
            // Most fixes have no outliers.
            if best.is_some_and(|((n, _), _)| n == 0) {
                break;
            }
            let found = against(other);
            if best.map_or(true, |((_, least), _)| found.1 < least) {
                best = Some((found, other));
            }
        }
        let (_, at) = best?;
        if Some(at) == fixed {
            return fixed;
        }
        self.stay(at, sights, models, second);
        screen(sights);
        let again = self.fix(sights, Some(at));
        again.filter(|a| ground(*a)).or(Some(at))
    }

    /// Removes pseudoranges that contradict the position of the others, and repeats the fix.
    fn without_strays(
        &mut self,
        sights: &mut Vec<Sight>,
        mut at: [f64; 3],
        models: &Models,
        second: f64,
    ) -> [f64; 3] {
        for _ in 0..3 {
            let Some(stray) = stray::worst(sights) else {
                break;
            };
            sights.remove(stray);
            let again = self.fix(sights, Some(at));
            at = again.filter(|a| ground(*a)).unwrap_or(at);
            self.stay(at, sights, models, second);
        }
        at
    }

    /// Moves to a position and computes all directions.
    fn stay(&mut self, at: [f64; 3], sights: &mut [Sight], models: &Models, second: f64) -> Sky {
        let sky = match self.sky {
            Some(sky) if sky.place == at => sky,
            _ => Sky::over(at),
        };
        match self.looked == Some(at) {
            true => measure(sights, at),
            false => look(sights, &sky, models, second),
        }
        (self.sky, self.looked) = (Some(sky), Some(at));
        sky
    }
}

/// Checks that a position is near the ground.
fn ground(place: [f64; 3]) -> bool {
    HEIGHTS.contains(&Sky::over(place).height())
}

/// Returns each system's median residual and outlier limit: ten times the robust scale, within
/// bounds. A system with fewer than three signals has none.
fn middles(sights: &[Sight]) -> [Option<(f64, f64)>; 4] {
    SYSTEMS.map(|system| {
        let own = sights.iter().filter(|s| s.band.system == system);
        let (mut all, mut count) = ([0.0; RECORDS], 0);
        for (a, sight) in all.iter_mut().zip(own) {
            *a = sight.miss();
            count += 1;
        }
        let all = &mut all[..count];
        if all.len() < 3 {
            return None;
        }
        let middle = median(all);
        all.iter_mut().for_each(|m| *m = (*m - middle).abs());
        let scale = 1.4826 * median(all);
        Some((middle, (10.0 * scale).clamp(OFF.0, OFF.1)))
    })
}

/// Writes the residual of each pseudorange: what it misses its system's median by, NaN in a
/// system without one. Returns the receiver's clock error, m.
pub fn residuals(sights: &[Sight], out: &mut Vec<f64>) -> f64 {
    let middles = middles(sights);
    let middle = |s: &Sight| middles[s.band.system as usize].map(|(m, _)| m);
    out.clear();
    out.extend(
        sights
            .iter()
            .map(|s| s.miss() - middle(s).unwrap_or(f64::NAN)),
    );
    let first = sights.iter().find_map(middle);
    first
        .or_else(|| sights.first().map(Sight::miss))
        .unwrap_or(0.0)
}

/// Checks whether a pseudorange is an outlier.
fn off(sight: &Sight, middles: &[Option<(f64, f64)>; 4]) -> bool {
    let middle = middles[sight.band.system as usize];
    middle.is_some_and(|(m, limit)| (sight.miss() - m).abs() > limit)
}

/// Returns the number of outliers and the sum of the clipped residuals.
fn missing(sights: &[Sight]) -> (usize, f64) {
    let middles = middles(sights);
    let gap = |s: &Sight| middles[s.band.system as usize].map(|(m, _)| (s.miss() - m).abs());
    let gaps = sights.iter().filter_map(gap).map(|g| g.min(OFF.1));
    let count = sights.iter().filter(|s| off(s, &middles)).count();
    (count, gaps.sum())
}

/// Removes outliers. Returns their number.
fn screen(sights: &mut Vec<Sight>) -> u64 {
    let (before, middles) = (sights.len(), middles(sights));
    sights.retain(|s| !off(s, &middles));
    (before - sights.len()) as u64
}

#[cfg(test)]
pub mod tests {
    use super::super::signals::{Satellite, System};
    use super::*;

    /// Returns satellites all around whose pseudoranges meet at one place, with noise below 1 m.
    pub fn sights(count: usize) -> Vec<Sight> {
        let band = Band::of("G1").unwrap();
        let place = [-3_976_219.508_2, 3_382_372.567_1, 3_652_512.984_9];
        let sky = Sky::over(place);
        let mut out = Vec::new();
        for i in 0..400 {
            let (a, b) = (2.399_963 * f64::from(i), 1.0 - f64::from(i) / 200.0);
            let flat = (1.0 - b * b).sqrt();
            let satellite = [flat * a.cos(), flat * a.sin(), b].map(|x| 2.66e7 * x);
            let to = sky.direction(satellite);
            if to.elevation.to_degrees() < 20.0 || i % 9 != 0 || out.len() == count {
                continue;
            }
            let number = out.len() as u8 + 1;
            let pseudorange = to.range + 0.5 * f64::from(i).sin();
            out.push(Sight {
                signal: Signal {
                    satellite: Satellite {
                        system: System::Gps,
                        number,
                    },
                    band: 0,
                    code: b'C',
                    pseudorange,
                    carrier: None,
                    lost: 0,
                    doppler: None,
                },
                band,
                state: State {
                    place: satellite,
                    velocity: [0.0; 3],
                },
                clock: 0.0,
                delay: 0.0,
                channel: 0,
                to,
                ionosphere: 0.0,
                troposphere: 0.0,
            });
        }
        assert_eq!(out.len(), count);
        out
    }
}
