//! The rhythm of a receiver's epochs, by which a damaged time is told.

use super::time::Moment;

/// The number of epochs from which the rhythm is learnt.
pub const FIRST: usize = 9;
/// How far receivers stray from whole steps of their own clock, and from those of GPS time, s.
const STRAY: f64 = 3.0e-4;
const NEAREST: f64 = 5.2e-4;
/// The unit of the times that most receivers write, s.
const UNIT: f64 = 1.0e-3;
/// The drift of a free-running clock, s/s, and how far it counts, s.
const DRIFT: (f64, f64) = (2.0e-5, 2.0e-4);

/// The step of the epochs and where the last accepted one was.
///
/// A receiver measures at whole steps of its own clock, or at the whole millisecond of its clock
/// that is nearest to whole steps of GPS time. A time that does neither was not written by it.
pub struct Rhythm {
    /// The largest step that divides a second and the intervals; none where they have no pattern.
    step: Option<f64>,
    /// Whether times are whole milliseconds.
    whole: bool,
    /// The second of the week of the last accepted epoch, and the same by GPS time.
    tag: f64,
    gps: Option<f64>,
    last: Option<Moment>,
    /// The last epoch, if it was not accepted.
    odd: Option<f64>,
}

/// Returns the step of an interval in hundredths of a second: their greatest common divisor with 100.
fn step(interval: f64) -> u32 {
    let (mut a, mut b) = (100, (interval * 100.0).round().clamp(1.0, 1e9) as u32);
    while b > 0 {
        (a, b) = (b, a % b);
    }
    a
}

/// Returns the step of most intervals; none where fewer than half have it.
fn usual(times: &[Moment]) -> Option<f64> {
    let intervals: Vec<f64> = times.windows(2).map(|w| w[1].since(w[0])).collect();
    let steps: Vec<u32> = intervals.iter().map(|i| step(*i)).collect();
    let count = |s: u32| steps.iter().filter(|t| **t == s).count();
    let best = steps.iter().copied().max_by_key(|s| (count(*s), *s))?;
    let step = f64::from(best) / 100.0;
    let whole = intervals.iter().filter(|i| off(**i, step) <= 4.0 * STRAY);
    let clear = steps.len() >= 2 && 2 * whole.count().min(count(best)) >= steps.len();
    clear.then_some(step)
}

/// Checks that a time is a whole millisecond, as far as RINEX tells.
fn whole(tag: f64) -> bool {
    off(tag, UNIT) < 1e-6
}

/// Returns how far a span is from whole steps, s.
fn off(span: f64, step: f64) -> f64 {
    (span - (span / step).round() * step).abs()
}

impl Rhythm {
    /// Learns the rhythm from the first epochs.
    pub fn of(times: &[Moment]) -> Self {
        let step = usual(times);
        let tags: Vec<f64> = times.iter().map(|t| t.second_of_week()).collect();
        let near = |tag: f64| {
            let close = |t: &&f64| step.is_some_and(|s| off(**t - tag, s) <= STRAY);
            tags.iter().filter(close).count()
        };
        let tag = tags.iter().copied().max_by_key(|t| near(*t));
        Self {
            step,
            whole: 2 * tags.iter().filter(|t| whole(**t)).count() > tags.len(),
            tag: tag.unwrap_or(0.0),
            gps: None,
            last: None,
            odd: None,
        }
    }

    /// Checks whether an epoch keeps the rhythm; `clock` is the receiver's clock error, s.
    ///
    /// A second one in a row that agrees with the first shows that the rhythm has changed.
    pub fn keeps(&mut self, time: Moment, clock: f64) -> bool {
        let Some(step) = self.step else {
            return true;
        };
        let tag = time.second_of_week();
        let gps = tag - clock;
        let passed = self.last.map_or(0.0, |last| time.since(last));
        let stray = STRAY + (DRIFT.0 * passed).min(DRIFT.1);
        let near = |a: f64, b: f64| off(a - b, step) <= stray;
        let close = |gps: f64| off(gps, step) <= NEAREST;
        let steady = near(tag, self.tag) || self.gps.is_some_and(|last| near(gps, last));
        let nearest = close(gps) && self.gps.map_or(true, close);
        let again = self.odd.is_some_and(|odd| near(tag, odd));
        let written = whole(tag) || !self.whole;
        let kept = (steady || nearest) && written || again;
        if kept {
            (self.tag, self.gps, self.last) = (tag, Some(gps), Some(time));
        }
        self.odd = (!kept).then_some(tag);
        kept
    }
}

#[cfg(test)]
mod tests {
    use super::*;

    fn times(tows: &[f64]) -> Vec<Moment> {
        tows.iter().map(|t| Moment::of_week(2160, *t)).collect()
    }

    /// Returns which epochs keep the rhythm; each has its time and the receiver's clock error.
    fn kept(epochs: &[(f64, f64)]) -> Vec<bool> {
        let tows: Vec<f64> = epochs.iter().map(|e| e.0).collect();
        let all = times(&tows);
        let mut rhythm = Rhythm::of(&all[..all.len().min(FIRST)]);
        let keeps = |(t, (_, clock)): (&Moment, &(f64, f64))| rhythm.keeps(*t, *clock);
        all.iter().zip(epochs).map(keeps).collect()
    }

    #[test]
    fn steps_are_those_of_the_intervals() {
        let step = |tows: &[f64]| usual(&times(tows));
        assert_eq!(step(&[0.0, 30.0, 60.0, 90.001]), Some(1.0));
        assert_eq!(step(&[0.0, 0.1, 0.2, 0.3]), Some(0.1));
        assert_eq!(step(&[0.0, 0.97, 2.0, 3.0, 4.0]), Some(1.0));
        assert_eq!(step(&[0.0, 1.5, 3.0]), Some(0.5));
        assert_eq!(step(&[0.0, 0.71, 3.21, 3.26, 3.46]), None);
        assert_eq!(step(&[0.0, 0.714, 3.218, 5.923, 6.167]), None);
        assert_eq!(step(&[0.0, 1.0]), None);
    }

    #[test]
    fn receivers_keep_their_own_rhythm() {
        // Whole seconds of the receiver's clock, whatever that is.
        let own: Vec<(f64, f64)> = (0..20)
            .map(|i| (f64::from(i), 0.003 * f64::from(i)))
            .collect();
        assert!(kept(&own).iter().all(|k| *k));
        // The millisecond that is nearest to whole seconds of GPS time, as GEONET's.
        let nearest = |i: i32| {
            let clock = -2.6e-4 + 4.2e-5 * f64::from(i);
            (30.0 * f64::from(i) + (clock * 1e3).round() / 1e3, clock)
        };
        assert!(kept(&(0..200).map(nearest).collect::<Vec<_>>())
            .iter()
            .all(|k| *k));
        // A phone's time, which has no whole seconds and drifts.
        let phone = |i: i32| (0.441_952 + 1.000_012 * f64::from(i), 0.0);
        assert!(kept(&(0..200).map(phone).collect::<Vec<_>>())
            .iter()
            .all(|k| *k));
        // A gap, and the end of the week.
        let gap = [
            604_790.0,
            604_795.0,
            604_796.0,
            604_797.0,
            1_204_800.0,
            1_204_801.0,
        ];
        assert!(kept(&gap.map(|t| (t, 0.0))).iter().all(|k| *k));
    }

    #[test]
    fn a_changed_digit_is_told() {
        for late in [0.9, 0.03, 0.008, 0.002, -0.01, 0.000_3, 0.000_002] {
            for at in [0, 1, 5, 12] {
                let mut all: Vec<(f64, f64)> =
                    (0..15).map(|i| (30.0 * f64::from(i), 2e-4)).collect();
                all[at].0 += late;
                let want: Vec<bool> = (0..15).map(|i| i != at).collect();
                assert_eq!(kept(&all), want, "{late} {at}");
            }
        }
        // A rhythm that changes for good loses one epoch.
        let step = |i: i32| (f64::from(i) + if i < 12 { 0.0 } else { 0.25 }, 0.0);
        let kept = kept(&(0..20).map(step).collect::<Vec<_>>());
        assert_eq!(kept.iter().filter(|k| !**k).count(), 1);
        assert!(!kept[12]);
    }
}
