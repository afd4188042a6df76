//! Inputs of the displacement: drives under a sky, and the edges that only they have.

use super::turns::{next_to, Beside, Floats, Input};
use super::{along, direction, top, Place, Plan};
use crate::estimate::Displacement;
use crate::random::Random;
use crate::rules;
use drifters_core::frames::Ecef;
use drifters_gnss::tdcp::{geometry, Carrier, Settings};

/// A drive of some seconds: phases from a true displacement, with noise, slips and lost lock.
fn drive(random: &mut Random, plan: &Plan) -> Displacement {
    let place = Place::random(random);
    let dt = match random.below(4) {
        0 => 30.0 * random.unit().abs() + 0.01,
        _ => 1.0,
    };
    let speed = 40.0 * random.unit();
    let moved = along(place.at, speed * dt, direction(random));
    let drifts: [f64; 8] = std::array::from_fn(|_| 100.0 * random.unit());
    let range = |satellite: [f64; 3], at: [f64; 3]| {
        let (_, range) = geometry(satellite, Ecef::new(at[0], at[1], at[2]));
        range
    };
    let (mut previous, mut current) = (Vec::new(), Vec::new());
    let satellites = plan.satellites(random, &place);
    for (k, (now, elevation, constellation)) in satellites.into_iter().enumerate() {
        let then = along(now, 3000.0 * dt * random.unit(), direction(random));
        let (before, after) = (range(then, place.at), range(now, moved));
        let drift = drifts[usize::from(constellation) % 8];
        let ambiguity = 1e7 * random.unit();
        let rate = (after - before) / dt + drift;
        let slip = match random.below(12) {
            0 if !plan.clean => 0.19 * f64::from(random.between(-40, 40)),
            1 if !plan.clean => 300.0 * random.unit(),
            _ => 0.0,
        };
        let mut lock = || match random.below(24) {
            0 if !plan.clean => random.pick(&[0, 2, 3, 4, 5, 7, -1, 16, i32::MIN]),
            1 => random.pick(&[9, 17, 25, 1 | i32::MIN, !6]),
            _ => 1,
        };
        let states = [lock(), lock()];
        let carrier = Carrier {
            constellation,
            svid: 1 + k as u16,
            band: random.pick(&[1575, 1176, 1602]),
            adr: before + ambiguity + 0.005 * random.unit(),
            state: states[0],
            satellite: then,
            elevation: (elevation + 0.01 * random.unit()).clamp(-90.0, 90.0),
            rate: rate + 0.05 * random.unit(),
        };
        previous.push(carrier);
        current.push(Carrier {
            adr: after + ambiguity + drift * dt + slip + 0.005 * random.unit(),
            state: states[1],
            satellite: now,
            elevation,
            rate: rate + 0.05 * random.unit(),
            ..carrier
        });
    }
    if !plan.clean {
        // Each epoch in its own order, and without some of the other's.
        for epoch in [&mut previous, &mut current] {
            for _ in 0..random.below(4).min(epoch.len() as u64) {
                let (a, b) = (random.place(epoch.len()), random.place(epoch.len()));
                epoch.swap(a, b);
                if random.below(2) == 0 {
                    epoch.remove(a);
                }
            }
        }
    }
    let settings = Settings {
        screen: random.pick(&[0.5, 0.5, 0.2, 2.0, 1e9]),
        mask: if plan.clean { -90.0 } else { 10.0 },
        huber: random.pick(&[1.5, 1.5, 1.0, 0.3]),
        iterations: random.pick(&[4, 4, 4, 1, 2, 10, 50]),
        agreement: random.float(),
        ..Settings::default()
    };
    Displacement {
        previous,
        current,
        dt,
        receiver: place.at,
        settings,
    }
}

/// One carrier of either epoch.
fn one<'a>(random: &mut Random, input: &'a mut Displacement) -> Option<&'a mut Carrier> {
    let mut all: Vec<&mut Carrier> = input
        .previous
        .iter_mut()
        .chain(&mut input.current)
        .collect();
    let count = all.len();
    (count > 0).then(|| all.swap_remove(random.place(count)))
}

/// About 64 records in each epoch; those that are added have a signal each, or all the same.
fn fill(random: &mut Random, input: &mut Displacement) {
    let shared = random.below(2) == 0;
    let full = 63 + random.place(4);
    for epoch in [&mut input.previous, &mut input.current] {
        if let Some(&last) = epoch.last() {
            let mut svid = 1000;
            while epoch.len() < full {
                svid += u16::from(!shared);
                epoch.push(Carrier { svid, ..last });
            }
        }
        if random.below(2) == 0 {
            epoch.truncate(rules::RECORDS);
        }
    }
}

/// A detector next to the screen.
fn screen_one(random: &mut Random, input: &mut Displacement) {
    let pairs = rules::pairs(input);
    if !pairs.is_empty() {
        let off = (random.pick(&pairs).1 - rules::centre(&pairs)).abs();
        input.settings.screen = next_to(random, off);
    }
}

/// Two of one signal in an epoch, of which the first may be unusable.
fn repeat_one(random: &mut Random, input: &mut Displacement) {
    let state = random.pick(&[1, 0, 3, 5]);
    let from = random.below(2) == 0;
    let epoch = match random.below(3) {
        0 => &mut input.current,
        _ => &mut input.previous,
    };
    if let Some(&c) = epoch.last() {
        let adr = if from { c.adr + 1.0 } else { c.adr };
        let place = random.place(epoch.len());
        epoch.insert(place, Carrier { state, adr, ..c });
    }
}

/// A carrier that is unusable, or has another signal.
fn lose_one(random: &mut Random, input: &mut Displacement) {
    let nan = f64::from_bits(0x7FF0_0000_0000_0000 | random.bits());
    let adr = random.pick(&[nan, nan, f64::INFINITY, f64::NEG_INFINITY]);
    let bits = random.bits();
    let kind = random.below(5);
    if let Some(c) = one(random, input) {
        match kind {
            0 => c.adr = adr,
            1 => c.state = bits as i32,
            2 => c.svid ^= 1 << (bits % 16),
            3 => c.band ^= 1 << (bits % 32),
            _ => c.constellation ^= 1 << (bits % 8),
        }
    }
}

/// Five to seven equal pairs.
fn equal_pairs(random: &mut Random, input: &mut Displacement) {
    if let (Some(&p), Some(&c)) = (input.previous.first(), input.current.first()) {
        let c = Carrier {
            state: 1,
            constellation: p.constellation,
            svid: p.svid,
            band: p.band,
            ..c
        };
        let n = 5 + random.place(3);
        input.previous = vec![Carrier { state: 1, ..p }; n];
        input.current = vec![c; n];
        input.settings.mask = -90.0;
        input.settings.iterations = random.pick(&[0, 0, 4]);
    }
}

impl Input for Displacement {
    const EDGES: u64 = 10;

    fn under(random: &mut Random, plan: &Plan) -> Self {
        drive(random, plan)
    }

    fn clean(random: &mut Random, count: usize) -> Self {
        let plan = Plan::clean(random, count);
        Self {
            settings: Settings {
                mask: -90.0,
                ..Settings::default()
            },
            ..drive(random, &plan)
        }
    }

    fn records(&mut self) -> Vec<Floats<'_>> {
        let records = self.previous.iter_mut().chain(&mut self.current);
        records
            .map(|c| Floats {
                measured: vec![&mut c.adr, &mut c.rate],
                satellite: &mut c.satellite,
                elevation: &mut c.elevation,
            })
            .collect()
    }

    fn beside(&mut self) -> Beside<'_> {
        let set = &mut self.settings;
        Beside {
            place: &mut self.receiver,
            sigma_a: &mut set.sigma_a,
            sigma_b: &mut set.sigma_b,
            huber: &mut set.huber,
            mask: &mut set.mask,
            rounds: &mut set.iterations,
            more: vec![&mut set.screen, &mut self.dt],
        }
    }

    fn own_edge(&mut self, random: &mut Random, which: u64) {
        match which {
            0 => fill(random, self),
            1 | 2 => screen_one(random, self),
            3 => {
                let edge = next_to(random, rules::INTERVAL);
                let odd = random.float();
                let some = [edge, edge, 0.0, -0.0, -1.0, 5e-324, 1e-300, 6e5, odd];
                self.dt = random.pick(&some);
            }
            4 | 5 => repeat_one(random, self),
            6 => lose_one(random, self),
            7 => equal_pairs(random, self),
            8 => top::on_receiver(random, self),
            // Previous carriers below the mask, which nothing tests.
            _ => {
                for p in &mut self.previous {
                    p.elevation = -random.unit().abs();
                }
            }
        }
    }

    fn open_screen(&mut self, random: &mut Random) {
        self.settings.screen = random.pick(&[0.5, 1e9, 1e9, 1e9]);
    }
}
