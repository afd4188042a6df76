//! A trip under settings that change between two epochs: lists of events, against `delta_position` of the Rust under the settings in force and the plain
//! trip of the service `trip`. After every event the trip, the settings in force and the results are compared.

use super::displacement::Call;
use super::estimator::Call as _;
use super::trip::{
    added, is_sound, length, made_up, millimetres, pulses, rate, report_of, started, Words,
};
use super::Service;
use crate::bench;
use crate::estimate::Displacement;
use crate::ffi::{self, Force};
use crate::numbers::Numbers;
use crate::random::Random;
use crate::rules::{LIMIT, ROUNDS};
use crate::sky::{self, Input as _};
use crate::tally::{hex, Tally};
use crate::vectors::{of_each, raw, Case, Vectors};
use drifters_gnss::tdcp::{Delta, Settings};
use std::hint::black_box;

pub const SERVICE: Service = Service {
    name: "drive",
    count: 1_000,
    compare,
    bench: Some(time),
};

/// How many pairs of epochs there are to take from; a few are made anew for each list.
const POOL: usize = 24;

/// Settings by their floats and rounds, as the Rust has them.
pub fn settings_of(force: &Force) -> Settings {
    let [screen, sigma_a, sigma_b, huber, mask] = force.floats;
    Settings {
        screen,
        sigma_a,
        sigma_b,
        huber,
        mask,
        iterations: force.rounds,
        ..Settings::default()
    }
}

/// Whether 3 lets settings pass.
fn pass(force: &Force) -> bool {
    force
        .floats
        .iter()
        .all(|x| x.is_finite() && x.abs() <= LIMIT)
        && force.rounds <= ROUNDS
}

/// A trip with these settings, or 3, or the trip's number.
pub fn under(settings: &Force, trip: Result<Words, u8>) -> Result<(Words, Force), u8> {
    if !pass(settings) {
        return Err(3);
    }
    Ok((trip?, *settings))
}

/// The trip where 16 lets it pass.
pub fn tested(trip: &Words) -> Result<Words, u8> {
    is_sound(trip).then_some(*trip).ok_or(16)
}

/// The displacement under the settings in force and the trip with it, or the number: those of the displacement come before 16.
pub fn travelled(
    trip: &Words,
    moved: Result<Delta, u8>,
    pulses: u16,
) -> Result<(Words, Delta), u8> {
    let moved = moved?;
    let delta = [moved.delta.x, moved.delta.y, moved.delta.z];
    Ok((added(trip, &delta, pulses)?, moved))
}

/// Settings that a van may have, and now and then what 3 turns away or stands next to it.
fn settings(random: &mut Random) -> Force {
    let mut force = Force {
        floats: [
            random.pick(&[0.5, 0.5, 2.0, 0.05, 1e9]),
            random.pick(&[0.008, 0.0, 0.02]),
            random.pick(&[0.002, 0.01]),
            random.pick(&[1.5, 1.0, 0.3]),
            random.pick(&[-90.0, 0.0, 5.0, 10.0, 15.0, 30.0]),
        ],
        rounds: random.pick(&[4, 4, 4, 1, 0, 10, 50]),
    };
    match random.below(12) {
        0 => force.floats[random.place(5)] = random.float(),
        1 => {
            force.floats[random.place(5)] =
                random.pick(&[1e9, -1e9, 1000000000.0000001, f64::NAN, f64::INFINITY, -0.0])
        }
        2 => force.rounds = random.pick(&[50, 51, 1 << 32, usize::MAX]),
        _ => {}
    }
    force
}

/// Two epochs: mostly of a clean sky, else as the displacement's service makes them.
fn epochs(random: &mut Random) -> Displacement {
    match random.below(4) {
        0 => sky::input(random),
        _ => {
            let n = 6 + random.place(9);
            Displacement::clean(random, n)
        }
    }
}

/// What both sides have after an event.
struct Way {
    words: Words,
    force: Force,
    /// The epochs that counted since the start.
    epochs: Vec<(u64, u16)>,
}

struct Both<'a> {
    tally: &'a mut Tally,
    numbers: &'a mut Numbers,
}

fn bits(force: &Force) -> ([u64; 5], usize) {
    (force.floats.map(f64::to_bits), force.rounds)
}

impl Both<'_> {
    fn judge(&mut self, what: &str, given: Vec<u64>, wanted: u8, same: bool) {
        self.numbers.count(wanted);
        self.tally.judge(same, || {
            format!("{what}: {}, the model's number {wanted}", hex(given))
        });
    }

    fn begin(&mut self, settings: &Force, per_km: u16, way: &mut Way) {
        let (mut words, mut force) = (way.words, way.force);
        let number = ffi::trip_begin(settings, per_km, &mut words, &mut force);
        let model = under(settings, started(per_km));
        let (w, f) = model.unwrap_or((way.words, way.force));
        let wanted = model.err().unwrap_or(0);
        let same = number == wanted && words == w && bits(&force) == bits(&f);
        let given = raw(&settings.floats).chain([settings.rounds as u64, u64::from(per_km)]);
        self.judge("begin", given.collect(), wanted, same);
        if model.is_ok() {
            *way = Way {
                words,
                force,
                epochs: Vec::new(),
            };
        }
    }

    fn change(&mut self, settings: &Force, trip: &Words, way: &mut Way) {
        let mut force = way.force;
        let number = ffi::trip_settings(trip, settings, &mut force);
        let model = under(settings, tested(trip));
        let f = model.map_or(way.force, |m| m.1);
        let wanted = model.err().unwrap_or(0);
        let same = number == wanted && bits(&force) == bits(&f);
        let given = raw(&settings.floats)
            .chain([settings.rounds as u64])
            .chain(*trip);
        self.judge("change", given.collect(), wanted, same);
        way.force = force;
    }

    /// Gives whether the epoch counted.
    fn travel(
        &mut self,
        input: &mut Displacement,
        call: &Call,
        trip: &mut Words,
        force: &Force,
        pulses: u16,
        lent: u64,
    ) -> Option<Delta> {
        let before = *trip;
        let (mut delta, mut counts) = ([f64::from_bits(lent); 3], [lent as usize, 7]);
        let kept = (delta.map(f64::to_bits), counts);
        let number = ffi::trip_displacement(
            trip,
            force,
            &call.previous,
            &call.current,
            input.dt,
            &input.receiver,
            pulses,
            &mut delta,
            &mut counts,
        );
        input.settings = settings_of(force);
        let moved = if call.whole() { input.answer() } else { Err(2) };
        let model = travelled(&before, moved, pulses);
        let wanted = *model.as_ref().err().unwrap_or(&0);
        let (words, d, n) = match &model {
            Ok((words, d)) => (
                *words,
                [d.delta.x, d.delta.y, d.delta.z].map(f64::to_bits),
                [d.used, d.screened],
            ),
            Err(_) => (before, kept.0, kept.1),
        };
        let same =
            number == wanted && *trip == words && delta.map(f64::to_bits) == d && counts == n;
        let given = before.into_iter().chain(raw(&force.floats)).chain([
            force.rounds as u64,
            u64::from(pulses),
            u64::from(number),
        ]);
        self.judge("displacement", given.collect(), wanted, same);
        model.ok().map(|m| m.1)
    }

    /// The report is that of the list of epochs that counted.
    fn whole(&mut self, way: &Way) {
        let mut report = [7; 4];
        let number = ffi::trip_report(&way.words, &mut report);
        let same = number == 0 && report == report_of(way.words[0], &way.epochs);
        self.judge("report of the list", way.words.to_vec(), 0, same);
    }
}

/// A list of events.
fn list(both: &mut Both, random: &mut Random, pool: &mut [(Displacement, Call)], events: u64) {
    let mut way = Way {
        words: [random.bits(); 6],
        force: settings(random),
        epochs: Vec::new(),
    };
    both.begin(&settings(random), rate(random), &mut way);
    while !is_sound(&way.words) || way.words[1] > 0 {
        both.begin(&settings(random), rate(random), &mut way);
    }
    for _ in 0..events {
        match random.below(16) {
            0..=2 => {
                let new = settings(random);
                let trip = if random.below(8) == 0 {
                    made_up(random)
                } else {
                    way.words
                };
                both.change(&new, &trip, &mut way);
            }
            // A made-up trip, or settings in force that the caller has damaged.
            3 => {
                let (input, call) = &mut pool[random.place(POOL)];
                let (mut trip, force) = (made_up(random), settings(random));
                both.travel(
                    input,
                    call,
                    &mut trip,
                    &force,
                    pulses(random),
                    random.bits(),
                );
            }
            _ => {
                let place = random.place(POOL);
                let (input, call) = &mut pool[place];
                let pulses = pulses(random);
                let force = way.force;
                if let Some(moved) =
                    both.travel(input, call, &mut way.words, &force, pulses, random.bits())
                {
                    let long = length(&[moved.delta.x, moved.delta.y, moved.delta.z]);
                    way.epochs.push((millimetres(long), pulses));
                }
            }
        }
    }
    both.whole(&way);
}

/// Lists of up to 2,000 events, most of them short.
fn compare(tally: &mut Tally, random: &mut Random, count: u64) {
    let mut numbers = Numbers::default();
    let made = |random: &mut Random| {
        let input = epochs(random);
        let mut call = Call::of(&input);
        if random.below(24) == 0 {
            call.turn_lengths(random);
        }
        (input, call)
    };
    let mut pool: Vec<(Displacement, Call)> = (0..POOL).map(|_| made(random)).collect();
    let mut longest = 0;
    for _ in 0..count {
        for _ in 0..2 {
            let place = random.place(POOL);
            pool[place] = made(random);
        }
        let events = match random.below(1_000) {
            0..=4 => 2_000,
            5..=9 => random.below(2_001),
            10..=99 => random.below(400),
            _ => random.below(60),
        };
        longest = longest.max(events);
        list(
            &mut Both {
                tally,
                numbers: &mut numbers,
            },
            random,
            &mut pool,
            events,
        );
    }
    tally.note(format!(
        "{numbers}; {count} lists, the longest of {longest} events"
    ));
}

/// A displacement added to a trip, and the Rust's displacement by itself.
fn time(random: &mut Random) {
    for count in [12, 30, 64] {
        let inputs: Vec<Displacement> = (0..64)
            .map(|_| Displacement::clean(random, count))
            .collect();
        let calls: Vec<(Call, Force)> = inputs
            .iter()
            .map(|i| {
                let call = Call::of(i);
                let force = Force {
                    floats: call.settings,
                    rounds: call.rounds,
                };
                (call, force)
            })
            .collect();
        let (mut delta, mut counts) = ([0.0; 3], [0; 2]);
        bench::row(
            "drive: an epoch more",
            count,
            calls.len(),
            || {
                let mut trip = [4000, 0, 0, 0, 0, 0];
                for ((call, force), input) in calls.iter().zip(&inputs) {
                    let (p, c) = (&call.previous, &call.current);
                    black_box(ffi::trip_displacement(
                        &mut trip,
                        force,
                        p,
                        c,
                        input.dt,
                        &input.receiver,
                        7,
                        &mut delta,
                        &mut counts,
                    ));
                }
            },
            || {
                for input in &inputs {
                    black_box(input.rust());
                }
            },
        );
    }
}

/// Trip 6, pulses, dt, and what the displacement's call stores; number, trip 6, used, screened, displacement 3 (zeros where refused).
pub fn vectors(random: &mut Random) -> Vectors {
    let wanted = [
        (0, 24),
        (2, 1),
        (3, 2),
        (4, 2),
        (5, 2),
        (7, 2),
        (8, 2),
        (9, 1),
        (10, 1),
        (16, 6),
    ];
    Vectors::of(of_each(&wanted, || {
        let input: Displacement = sky::input(random);
        let trip = match random.below(3) {
            0 => made_up(random),
            _ => [
                1 + random.below(65_535),
                9,
                7_000_000,
                4000,
                random.below(9_000_000),
                3,
            ],
        };
        let pulses = pulses(random);
        let call = Call::of(&input);
        let given: Vec<u64> = trip
            .into_iter()
            .chain([u64::from(pulses), input.dt.to_bits()])
            .chain(call.stored()?)
            .collect();
        let model = travelled(&trip, input.answer(), pulses);
        let number = *model.as_ref().err().unwrap_or(&0);
        let mut stored = vec![u64::from(number)];
        match model {
            Ok((words, d)) => {
                stored.extend(words);
                stored.extend([d.used as u64, d.screened as u64]);
                stored.extend([d.delta.x, d.delta.y, d.delta.z].map(f64::to_bits));
            }
            Err(_) => stored.extend([0; 11]),
        }
        Some((number, (given, stored)))
    }))
}

/// Settings 5, rounds, pulses per kilometre, trip 6; number of beginning, its trip 6, settings 5 and rounds, number of changing, settings 5 and rounds (zeros where
/// refused).
pub fn settings_cases(random: &mut Random) -> Vec<Case> {
    let case = |(new, per_km, trip): (Force, u16, Words)| {
        let given = raw(&new.floats)
            .chain([new.rounds as u64, u64::from(per_km)])
            .chain(trip)
            .collect();
        let [begun, changed] = [under(&new, started(per_km)), under(&new, tested(&trip))];
        let number = |r: &Result<(Words, Force), u8>| u64::from(*r.as_ref().err().unwrap_or(&0));
        let force = |r: &Result<(Words, Force), u8>| match r {
            Ok((_, f)) => raw(&f.floats).chain([f.rounds as u64]).collect(),
            Err(_) => vec![0; 6],
        };
        let mut stored = vec![number(&begun)];
        stored.extend(begun.map_or([0; 6], |b| b.0));
        stored.extend(force(&begun));
        stored.push(number(&changed));
        stored.extend(force(&changed));
        (given, stored)
    };
    let mut cases: Vec<Case> = (0..120)
        .map(|_| case((settings(random), rate(random), made_up(random))))
        .collect();
    // Accepted ones last, of which the answers are turned in the altered copies.
    let good = |k: u16| {
        (
            Force {
                floats: [0.5, 0.008, 0.002, 1.5, f64::from(k)],
                rounds: 4,
            },
            4000 + k,
            [1000, 2, 9, 9, 1, 1],
        )
    };
    cases.extend((0..20).map(|k| case(good(k))));
    cases
}

pub fn settings_vectors(random: &mut Random) -> Vectors {
    Vectors::of(settings_cases(random))
}
