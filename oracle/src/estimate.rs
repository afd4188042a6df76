//! Inputs of the displacement, by its interval and between two times, and of the fix, and what the
//! published Rust answers within the rules of docs/SCOPE.md.

use crate::rules;
use drifters_core::frames::Ecef;
use drifters_core::time::GpsTime;
use drifters_gnss::record::{rounds_of, Round};
use drifters_gnss::robust::{elevation_sigma, Clocks, NX};
use drifters_gnss::tdcp::{self, Carrier, Delta};
use drifters_gnss::wls::{self, Observation, Solution};

/// The number of no refusal: the rules refuse what the Rust does not.
pub const AT_ODDS: u8 = 255;
/// The fit fails.
pub const FIT_FAILED: u8 = 10;
/// chi or pdop is not finite.
pub const QUALITY_NOT_FINITE: u8 = 14;
/// A range is zero or not finite.
const ON_RECEIVER: u8 = 15;

/// Input of a displacement.
pub struct Displacement {
    pub previous: Vec<Carrier>,
    pub current: Vec<Carrier>,
    pub dt: f64,
    pub receiver: [f64; 3],
    pub settings: tdcp::Settings,
}

/// Input of a displacement between two times, in nanoseconds: the interval is what the Rust makes of them.
pub struct Between {
    pub displacement: Displacement,
    pub times: [u64; 2],
}

/// Input of a city displacement, with the band that is certified.
pub struct City {
    pub displacement: Displacement,
    pub band: u32,
}

/// Input of a fix.
pub struct Fix {
    pub observations: Vec<Observation>,
    pub guess: [f64; 3],
    pub settings: wls::Settings,
}

/// Three coordinates as the Rust has them.
fn ecef([x, y, z]: [f64; 3]) -> Ecef {
    Ecef::new(x, y, z)
}

impl Displacement {
    /// What the Rust gives.
    pub fn rust(&self) -> Option<Delta> {
        let at = ecef(self.receiver);
        tdcp::delta_position(&self.previous, &self.current, self.dt, at, &self.settings)
    }

    /// The Rust's answer, or the number of the refusal.
    pub fn answer(&self) -> Result<Delta, u8> {
        match rules::displacement(self) {
            None => self.rust().ok_or(FIT_FAILED),
            // Added, or a panic of the Rust's.
            Some(n @ (2..=4 | 9 | ON_RECEIVER)) => Err(n),
            Some(5) if self.dt > rules::INTERVAL && self.dt.is_finite() => Err(5),
            Some(n) => Err(if self.rust().is_none() { n } else { AT_ODDS }),
        }
    }
}

/// The Rust's seconds from the first time to the second.
#[inline]
fn seconds(times: [u64; 2]) -> f64 {
    let [before, now] = times.map(GpsTime::from_nanos);
    now.seconds_since(before)
}

impl Between {
    /// A displacement with its interval taken from two times.
    pub fn new(displacement: Displacement, times: [u64; 2]) -> Self {
        let dt = seconds(times);
        let displacement = Displacement { dt, ..displacement };
        Self {
            displacement,
            times,
        }
    }

    /// What the Rust gives, from the times on.
    pub fn rust(&self) -> Option<Delta> {
        let (d, dt) = (&self.displacement, seconds(self.times));
        tdcp::delta_position(&d.previous, &d.current, dt, ecef(d.receiver), &d.settings)
    }

    /// The Rust's answer, or the number of the refusal.
    pub fn answer(&self) -> Result<Delta, u8> {
        match rules::between(self) {
            // Added.
            Some(13) => Err(13),
            _ => self.displacement.answer(),
        }
    }
}

impl City {
    /// The input with all other carriers taken out.
    pub fn left(&self) -> Displacement {
        let of = |epoch: &[Carrier]| {
            let all = epoch.iter().copied();
            all.filter(|c| matches!(c.constellation, 1 | 6) && c.band == self.band)
                .collect()
        };
        let d = &self.displacement;
        Displacement {
            previous: of(&d.previous),
            current: of(&d.current),
            ..*d
        }
    }

    /// The Rust's answer of what is left, or the number of the refusal.
    pub fn answer(&self) -> Result<Delta, u8> {
        let left = self.left();
        match rules::city(&self.displacement, &left) {
            // 2 to 4 of every carrier, and 20.
            Some(n @ (2..=4 | 20)) => Err(n),
            _ => left.answer(),
        }
    }
}

impl Fix {
    /// What the Rust gives.
    pub fn rust(&self) -> Option<Solution> {
        wls::solve_full(&self.observations, ecef(self.guess), &self.settings)
    }

    /// The Rust's answer with chi at the point handed out, or the number of the refusal; and the
    /// Rust's rounds.
    pub fn answer_and_rounds(&self) -> (Result<Solution, u8>, Vec<Round>) {
        match rules::fix(self) {
            None => {
                let (found, rounds) = rounds_of(|| self.rust());
                (self.judged(found, &rounds), rounds)
            }
            // Added, or a panic of the Rust's.
            Some(n @ (2..=4 | 9)) => (Err(n), Vec::new()),
            Some(n) => (
                Err(if self.rust().is_none() { n } else { AT_ODDS }),
                Vec::new(),
            ),
        }
    }

    pub fn answer(&self) -> Result<Solution, u8> {
        self.answer_and_rounds().0
    }

    /// Observations at or above the mask.
    fn kept(&self) -> impl Iterator<Item = &Observation> {
        let all = self.observations.iter();
        all.filter(|o| o.elevation >= self.settings.mask)
    }

    /// Whether a range at the state is zero or not finite.
    fn met(&self, x: &[f64; NX]) -> bool {
        self.kept()
            .any(|o| rules::on_receiver(wls::geometry(o, x).1))
    }

    /// What `ended` gives, or 14 where its chi or pdop is not finite.
    fn judged(&self, found: Option<Solution>, rounds: &[Round]) -> Result<Solution, u8> {
        let s = self.ended(found, rounds)?;
        if s.chi.is_finite() && s.pdop.is_finite() {
            Ok(s)
        } else {
            Err(QUALITY_NOT_FINITE)
        }
    }

    /// Of a fix that 14 turns away, whether chi and whether pdop is not finite.
    pub fn not_finite(&self) -> [bool; 2] {
        let (found, rounds) = rounds_of(|| self.rust());
        let s = self.ended(found, &rounds);
        s.map_or([false; 2], |s| [s.chi, s.pdop].map(|x| !x.is_finite()))
    }

    /// 15 where a range is zero or not finite at the start of a round, 10 where the Rust has no
    /// solution, 15 at the returned position; or the Rust's solution with the model's chi in place
    /// of its own, finite or not. The states are the Rust's: the guess, with its steps added one
    /// after the other.
    fn ended(&self, found: Option<Solution>, rounds: &[Round]) -> Result<Solution, u8> {
        let n = Clocks::assign(self.kept().map(|o| o.constellation)).unknowns();
        let mut x = [0.0; NX];
        x[..3].copy_from_slice(&self.guess);
        for round in rounds {
            if self.met(&x) {
                return Err(ON_RECEIVER);
            }
            for (x, step) in x.iter_mut().zip(round.step).take(n) {
                *x += step;
            }
        }
        let short = |round: &Round| {
            let [a, b, c] = [round.step[0], round.step[1], round.step[2]];
            let level = (a * a + b * b).sqrt();
            (level * level + c * c).sqrt() < 1e-3
        };
        // Where the rounds are not used up and the last was not the end, one more began here.
        let ended = rounds.len() == self.settings.iterations || rounds.last().is_some_and(short);
        if !ended && self.met(&x) {
            return Err(ON_RECEIVER);
        }
        let found = found.ok_or(FIT_FAILED)?;
        if self.met(&x) {
            return Err(ON_RECEIVER);
        }
        let chi = self.chi(&x);
        Ok(Solution { chi, ..found })
    }

    /// chi at the state where the rounds end.
    fn chi(&self, x: &[f64; NX]) -> f64 {
        let set = &self.settings;
        let clocks = Clocks::assign(self.kept().map(|o| o.constellation));
        let square = |o: &Observation| {
            let (_, range) = wls::geometry(o, x);
            let residual = o.pseudorange - (range + x[clocks.slot(o.constellation)]);
            let r = residual / elevation_sigma(o.elevation, set.sigma_a, set.sigma_b);
            r * r
        };
        let freedom = self.kept().count().saturating_sub(clocks.unknowns()).max(1) as f64;
        (self.kept().map(square).sum::<f64>() / freedom).sqrt()
    }
}

#[cfg(test)]
mod tests {
    use super::*;
    use crate::random::Random;

    /// Carriers all over a sky that nothing moved under, one constellation for each of the first.
    fn standstill(count: usize, slots: usize) -> Displacement {
        let mut random = Random::new(1, "standstill");
        let epoch: Vec<Carrier> = (0..count)
            .map(|k| Carrier {
                constellation: (k % slots) as u8,
                svid: k as u16,
                band: 1575,
                adr: 1e6 * random.unit(),
                state: 1,
                satellite: crate::sky::direction(&mut random).map(|d| d * 2.6e7),
                elevation: 45.0,
                rate: 0.0,
            })
            .collect();
        Displacement {
            previous: epoch.clone(),
            current: epoch,
            dt: 1.0,
            receiver: [0.0, 0.0, 6.37e6],
            settings: tdcp::Settings::default(),
        }
    }

    /// Used and screened, or the number.
    fn counts(input: &Displacement) -> Result<(usize, usize), u8> {
        input.answer().map(|d| (d.used, d.screened))
    }

    #[test]
    fn trials_at_the_edges_of_a_displacement() {
        assert_eq!(counts(&standstill(0, 1)), Err(7));
        assert_eq!(counts(&standstill(5, 1)), Err(7));
        assert_eq!(counts(&standstill(6, 1)), Ok((6, 0)));
        assert_eq!(counts(&standstill(6, 3)), Err(8));
        assert_eq!(counts(&standstill(64, 6)), Ok((64, 0)));
        assert_eq!(counts(&standstill(65, 6)), Err(2));
        assert_eq!(counts(&standstill(11, 7)), Err(9));
        assert_eq!(counts(&standstill(10, 7)), Err(8));
        let mut input = standstill(7, 1);
        input.settings.mask = 45.0;
        assert_eq!(counts(&input), Ok((7, 0)));
        input.current[0].elevation = 45f64.next_down();
        assert_eq!(counts(&input), Ok((6, 0)));
        input.settings.screen = 0.5;
        input.current[1].rate = 1.0;
        assert_eq!(counts(&input), Ok((5, 1)));
        input.settings.screen = 0.5f64.next_up();
        assert_eq!(counts(&input), Ok((6, 0)));
        input.settings.screen = 1e9f64.next_up();
        assert_eq!(counts(&input), Err(3));
        input.settings.screen = 1e9;
        input.previous[6].rate = 1e9f64.next_up();
        assert_eq!(counts(&input), Err(4));
        input.previous[6].rate = 0.0;
        input.dt = 604_800.0;
        assert_eq!(counts(&input), Ok((6, 0)));
        input.dt = input.dt.next_up();
        assert_eq!(counts(&input), Err(5));
    }

    #[test]
    fn trials_at_the_edges_of_two_times() {
        let week = 604_800_000_000_000;
        let of = |times| match Between::new(standstill(7, 1), times).answer() {
            Ok(d) => d.used as u8,
            Err(n) => n,
        };
        // A second across the end of a week, and across the last one that is.
        assert_eq!(
            of([1317 * week - 500_000_000, 1317 * week + 500_000_000]),
            7
        );
        assert_eq!(of([rules::LAST - 1, rules::LAST]), 7);
        assert_eq!(of([rules::LAST, rules::LAST + 1]), 13);
        assert_eq!(of([u64::MAX, 0]), 13);
        // Not above 0, and above a week.
        assert_eq!(of([5, 5]), 5);
        assert_eq!(of([6, 5]), 5);
        assert_eq!(of([5, 5 + week]), 7);
        assert_eq!(of([5, 6 + week]), 5);
        // 4 comes before 13, and 13 before 5 and 7.
        let mut input = standstill(2, 1);
        assert_eq!(
            Between::new(standstill(2, 1), [u64::MAX; 2]).answer().err(),
            Some(13)
        );
        input.current[1].rate = f64::NAN;
        assert_eq!(Between::new(input, [u64::MAX; 2]).answer().err(), Some(4));
    }

    #[test]
    fn six_equal_pairs_and_their_rounds() {
        let mut input = standstill(6, 1);
        input.previous = vec![input.previous[0]; 6];
        input.current = input.previous.clone();
        assert_eq!(counts(&input), Err(10));
        input.settings.iterations = 0;
        let (answer, rounds) = rounds_of(|| input.answer());
        let delta = answer.expect("zero rounds fit").delta;
        assert_eq!([delta.x, delta.y, delta.z].map(f64::to_bits), [0; 3]);
        assert!(rounds.is_empty());
        let (_, rounds) = rounds_of(|| standstill(6, 1).answer());
        assert_eq!(rounds.len(), 1);
    }
}
