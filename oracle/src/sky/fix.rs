//! Inputs of the fix: pseudoranges under a sky, and the edges that only they have.

use super::turns::{Beside, Floats, Input};
use super::{along, direction, Place, Plan};
use crate::estimate::Fix;
use crate::random::{exp2, Random};
use drifters_gnss::wls::{geometry, Observation, Settings};

/// Pseudoranges from a true place, with clocks, noise and outliers, and a guess.
fn standing(random: &mut Random, plan: &Plan) -> Fix {
    let place = Place::random(random);
    let clocks: [f64; 8] = std::array::from_fn(|_| 3e5 * random.unit());
    let mut x = [0.0; 9];
    x[..3].copy_from_slice(&place.at);
    let satellites = plan.satellites(random, &place);
    let observations = satellites
        .into_iter()
        .map(|(satellite, elevation, constellation)| {
            let mut o = Observation {
                constellation,
                band: random.below(4) as u8,
                svid: random.below(40) as u16,
                // Never looked at.
                modelled: random.float(),
                pseudorange: 0.0,
                satellite,
                elevation,
            };
            let outlier = match random.below(12) {
                0 if !plan.clean => 800.0 * random.unit().abs(),
                _ => 0.0,
            };
            let clock = clocks[usize::from(constellation) % 8];
            o.pseudorange = geometry(&o, &x).1 + clock + 8.0 * random.unit() + outlier;
            o
        })
        .collect();
    let guess = match random.below(8) {
        0 => [0.0; 3],
        1 => place.at,
        2 => direction(random).map(|d| d * 1e9 * random.unit()),
        _ => along(place.at, exp2(random.between(0, 22)), direction(random)),
    };
    let settings = Settings {
        mask: if plan.clean { -90.0 } else { 10.0 },
        huber: random.pick(&[1.0, 1.0, 1.5, 0.3]),
        iterations: random.pick(&[25, 25, 25, 1, 2, 5, 50]),
        ..Settings::default()
    };
    Fix {
        observations,
        guess,
        settings,
    }
}

impl Input for Fix {
    const EDGES: u64 = 4;

    fn under(random: &mut Random, plan: &Plan) -> Self {
        standing(random, plan)
    }

    fn clean(random: &mut Random, count: usize) -> Self {
        let plan = Plan::clean(random, count);
        loop {
            let out = standing(random, &plan);
            let [x, y, z] = out.guess;
            // The guess is some kilometres off, and no farther.
            if (6e6..7e6).contains(&(x * x + y * y + z * z).sqrt()) {
                return Self {
                    settings: Settings {
                        mask: -90.0,
                        ..Settings::default()
                    },
                    ..out
                };
            }
        }
    }

    fn records(&mut self) -> Vec<Floats<'_>> {
        let records = self.observations.iter_mut();
        records
            .map(|o| Floats {
                measured: vec![&mut o.pseudorange],
                satellite: &mut o.satellite,
                elevation: &mut o.elevation,
            })
            .collect()
    }

    fn beside(&mut self) -> Beside<'_> {
        let set = &mut self.settings;
        Beside {
            place: &mut self.guess,
            sigma_a: &mut set.sigma_a,
            sigma_b: &mut set.sigma_b,
            huber: &mut set.huber,
            mask: &mut set.mask,
            rounds: &mut set.iterations,
            more: Vec::new(),
        }
    }

    fn own_edge(&mut self, random: &mut Random, which: u64) {
        let Some(&last) = self.observations.last() else {
            return;
        };
        match which {
            // About 64 observations.
            0 => self.observations.resize(63 + random.place(4), last),
            // A satellite on the guess.
            1 => {
                let k = random.place(self.observations.len());
                self.observations[k].satellite = self.guess;
            }
            // Sigmas so small that a weight is finite and the square of a residual by its sigma is not.
            2 => {
                self.settings.sigma_a = exp2(random.between(-512, -500));
                self.settings.sigma_b = 0.0;
            }
            // Satellites at one place.
            _ => {
                for o in &mut self.observations {
                    o.satellite = last.satellite;
                }
            }
        }
    }
}
