//! A trip against a plain model in whole numbers of 128 bits: the reference has none. The model keeps the list of epochs since the start, and
//! works the report out of it.

use super::Service;
use crate::numbers::Numbers;
use crate::random::Random;
use crate::tally::{hex, Tally};
use crate::vectors::Vectors;
use crate::{bench, ffi};
use std::hint::black_box;

pub const SERVICE: Service = Service {
    name: "trip",
    count: 1_000_000,
    compare,
    bench: Some(time),
};

/// Six words: pulses per kilometre, epochs, carrier millimetres, pulses, greatest difference, its epoch.
pub type Words = [u64; 6];

/// The most epochs of a trip.
const FULL: u64 = 65_535;

/// Lengths at which something changes: 1,000 m, 1 mm, 0, and what is not finite or overflows when squared.
const LENGTHS: [f64; 16] = [
    0.0,
    -0.0,
    5e-324,
    f64::MIN_POSITIVE,
    0.001,
    0.002,
    0.9999999999999999,
    1.0005,
    999.999,
    1000.0,
    1000.0000000000001,
    1e154,
    f64::MAX,
    f64::INFINITY,
    f64::NEG_INFINITY,
    f64::NAN,
];

/// The length by the rounded squares, summed in the order x, y, z, and the root.
pub fn length([x, y, z]: &[f64; 3]) -> f64 {
    (x * x + y * y + z * z).sqrt()
}

/// The exact value of a length of at most 1,000 m times 1,000, rounded down.
pub fn millimetres(length: f64) -> u64 {
    let bits = length.to_bits();
    let (exponent, fraction) = (bits >> 52, bits & ((1 << 52) - 1));
    let (significand, down) = match exponent {
        0 => (fraction, 1074),
        e => (fraction | 1 << 52, 1075 - e),
    };
    (u128::from(significand) * 1000)
        .checked_shr(down as u32)
        .unwrap_or(0) as u64
}

/// Pulses in millimetres.
fn odometer(rate: u128, pulses: u128) -> u128 {
    pulses * 1_000_000 / rate
}

/// Whether 16 lets a trip pass.
pub fn is_sound(trip: &Words) -> bool {
    let [rate, epochs, carrier, pulses, _, _] = trip.map(u128::from);
    (1..=65_535).contains(&rate)
        && epochs <= 65_535
        && carrier <= 1_000_000 * epochs
        && pulses <= 65_535 * epochs
}

/// A trip just started, or 16.
pub fn started(per_km: u16) -> Result<Words, u8> {
    match per_km {
        0 => Err(16),
        rate => Ok([u64::from(rate), 0, 0, 0, 0, 0]),
    }
}

/// The trip with one epoch more, or 16.
pub fn added(trip: &Words, delta: &[f64; 3], pulses: u16) -> Result<Words, u8> {
    let long = length(delta);
    let measurable = delta.iter().all(|x| x.is_finite()) && long <= 1000.0;
    if !is_sound(trip) || trip[1] == FULL || !measurable {
        return Err(16);
    }
    let [rate, epochs, carrier, count, greatest, reached] = *trip;
    let carrier = carrier + millimetres(long);
    let count = count + u64::from(pulses);
    let apart = u128::from(carrier).abs_diff(odometer(rate.into(), count.into())) as u64;
    let (greatest, reached) = if epochs == 0 || apart > greatest {
        (apart, epochs + 1)
    } else {
        (greatest, reached)
    };
    Ok([rate, epochs + 1, carrier, count, greatest, reached])
}

/// Its report, or 16.
pub fn reported(trip: &Words) -> Result<[u64; 4], u8> {
    let [rate, _, carrier, pulses, greatest, reached] = *trip;
    let sound = || {
        let odometer = odometer(rate.into(), pulses.into()) as u64;
        [carrier, odometer, greatest, reached]
    };
    is_sound(trip).then(sound).ok_or(16)
}

/// Its fuel for a kilometre, or 16 or 17.
pub fn fuelled(trip: &Words, millilitres: u32) -> Result<u64, u8> {
    match trip[2] {
        _ if !is_sound(trip) => Err(16),
        0 => Err(17),
        carrier => Ok((u128::from(millilitres) * 1_000_000 / u128::from(carrier)) as u64),
    }
}

/// The report of a list of epochs, from the list alone: the totals after each, the greatest difference, and the first epoch with it.
pub fn report_of(rate: u64, epochs: &[(u64, u16)]) -> [u64; 4] {
    let totals = |n: usize| {
        let (mm, pulses) = epochs[..n].iter().fold((0, 0), |(a, b), e| {
            (a + u128::from(e.0), b + u128::from(e.1))
        });
        [mm, odometer(rate.into(), pulses)]
    };
    let (mut sums, mut apart) = ([0u128; 2], Vec::with_capacity(epochs.len()));
    for e in epochs {
        sums = [sums[0] + u128::from(e.0), sums[1] + u128::from(e.1)];
        apart.push(sums[0].abs_diff(odometer(rate.into(), sums[1])));
    }
    let greatest = apart.iter().copied().max().unwrap_or(0);
    let reached = apart
        .iter()
        .position(|&d| d == greatest)
        .map_or(0, |k| k + 1);
    let [carrier, odometer] = totals(epochs.len());
    [
        carrier as u64,
        odometer as u64,
        greatest as u64,
        reached as u64,
    ]
}

/// A float up to two patterns off x.
fn about(random: &mut Random, x: f64) -> f64 {
    f64::from_bits(
        x.to_bits()
            .wrapping_add_signed(i64::from(random.between(-2, 2))),
    )
}

/// A displacement: just at or beside whole millimetres on one axis, as 3, 4 and 5 are, at an edge, of a van, of any floats.
pub fn displacement(random: &mut Random) -> [f64; 3] {
    let mut delta = [0.0; 3];
    match random.below(8) {
        0..=2 => {
            let n = random.below(1_000_001) >> random.between(0, 20);
            let x = about(random, n as f64 / 1000.0);
            delta[random.place(3)] = x;
        }
        3 => {
            let k = random.below(200_001) as f64 / 1000.0;
            delta = [3.0 * k, 4.0 * k, 0.0];
            delta.rotate_left(random.place(3));
        }
        4 => {
            let edge = random.pick(&LENGTHS);
            delta[random.place(3)] = about(random, edge);
        }
        5 => delta = std::array::from_fn(|_| random.float()),
        _ => delta = std::array::from_fn(|_| 30.0 * random.unit()),
    }
    let signs = random.bits();
    std::array::from_fn(|k| {
        if signs >> k & 1 == 1 {
            -delta[k]
        } else {
            delta[k]
        }
    })
}

pub fn rate(random: &mut Random) -> u16 {
    match random.below(16) {
        0 => 0,
        1..=4 => 1,
        5..=8 => 65_535,
        _ => random.bits() as u16,
    }
}

pub fn pulses(random: &mut Random) -> u16 {
    match random.below(4) {
        0 => random.pick(&[0, 1, 65_534, 65_535]),
        _ => (random.bits() as u16) >> random.below(16),
    }
}

/// A number at a limit or beside it.
pub fn at(random: &mut Random, limit: u64) -> u64 {
    limit.saturating_add_signed(i64::from(random.between(-1, 1)))
}

/// A made-up trip: each of its numbers at a limit, beside it, within it, or any.
pub fn made_up(random: &mut Random) -> Words {
    let within = |random: &mut Random, limit: u64| match random.below(8) {
        0..=2 => at(random, limit),
        3 => random.bits() >> random.below(64),
        _ => random.below(limit + 1),
    };
    let epochs = match random.below(4) {
        0 => at(random, FULL),
        1 => random.below(4),
        _ => within(random, FULL),
    };
    let rate = match random.below(8) {
        0 => at(random, 65_535),
        1 => random.below(2),
        2 => random.bits() >> random.below(64),
        _ => 1 + random.below(65_535),
    };
    [
        rate,
        epochs,
        within(random, 1_000_000u64.saturating_mul(epochs)),
        within(random, 65_535u64.saturating_mul(epochs)),
        random.bits() >> random.below(64),
        match random.below(4) {
            0 => at(random, u64::from(u32::MAX)),
            1 => random.bits() >> random.below(64),
            _ => random.below(65_536),
        },
    ]
}

/// The trip under way, and the epochs that it took since its start.
struct Way {
    words: Words,
    epochs: Option<Vec<(u64, u16)>>,
}

/// One comparison: the numbers, and what is lent holds afterwards.
struct Both<'a> {
    tally: &'a mut Tally,
    numbers: &'a mut Numbers,
}

impl Both<'_> {
    fn judge<const N: usize>(
        &mut self,
        what: &str,
        given: &[u64],
        number: u8,
        ours: [u64; N],
        model: Result<[u64; N], u8>,
        lent: [u64; N],
    ) {
        let wanted = model.err().unwrap_or(0);
        self.numbers.count(wanted);
        let expected = model.unwrap_or(lent);
        self.tally.judge(number == wanted && ours == expected, || {
            let given = hex(given.iter().copied());
            format!(
                "{what} of {given}: ours {number}, {ours:?}, the model's {wanted}, {expected:?}"
            )
        });
    }

    fn start(&mut self, per_km: u16, lent: Words) -> Words {
        let mut ours = lent;
        let number = ffi::trip_start(per_km, &mut ours);
        self.judge(
            "start",
            &[u64::from(per_km)],
            number,
            ours,
            started(per_km),
            lent,
        );
        ours
    }

    fn add(&mut self, trip: Words, delta: [f64; 3], pulses: u16) -> Words {
        let mut ours = trip;
        let number = ffi::trip_add(&mut ours, &delta, pulses);
        let given: Vec<u64> = trip
            .into_iter()
            .chain(delta.map(f64::to_bits))
            .chain([u64::from(pulses)])
            .collect();
        self.judge(
            "add",
            &given,
            number,
            ours,
            added(&trip, &delta, pulses),
            trip,
        );
        ours
    }

    fn ask(&mut self, trip: Words, millilitres: u32, lent: u64) {
        let (mut report, mut per_km) = ([lent; 4], [lent]);
        let numbers = [
            ffi::trip_report(&trip, &mut report),
            ffi::trip_fuel(&trip, millilitres, &mut per_km[0]),
        ];
        self.judge(
            "report",
            &trip,
            numbers[0],
            report,
            reported(&trip),
            [lent; 4],
        );
        let fuel = fuelled(&trip, millilitres).map(|ml| [ml]);
        self.judge("fuel", &trip, numbers[1], per_km, fuel, [lent]);
    }

    /// The report of the trip under way is that of the list.
    fn whole(&mut self, way: &Way) {
        if let Some(epochs) = &way.epochs {
            let mut report = [7; 4];
            let number = ffi::trip_report(&way.words, &mut report);
            let of_list = report_of(way.words[0], epochs);
            self.judge(
                "report of the list",
                &way.words,
                number,
                report,
                Ok(of_list),
                [7; 4],
            );
        }
    }
}

/// Every edge of a length on each axis first, then calls one after the other: trips from their start, some until they are full, and
/// made-up ones at each limit.
fn compare(tally: &mut Tally, random: &mut Random, count: u64) {
    let mut numbers = Numbers::default();
    let mut both = Both {
        tally,
        numbers: &mut numbers,
    };
    for (k, x) in LENGTHS.iter().enumerate() {
        for x in [x.next_down(), *x, x.next_up()] {
            let mut delta = [0.0, -0.0, 0.0];
            delta[k % 3] = x;
            both.add([1000, 0, 0, 0, 0, 0], delta, 1);
        }
    }
    let mut way = Way {
        words: [1, 0, 0, 0, 0, 0],
        epochs: Some(Vec::new()),
    };
    let (mut full, mut longest) = (0u64, 0);
    for _ in 0..count {
        // A full trip is tried some more, and then left.
        let left = way.words[1] == FULL && random.below(128) == 0;
        match if left {
            random.below(4)
        } else {
            random.below(65_536)
        } {
            0..=1 => {
                both.whole(&way);
                let words = both.start(rate(random), [random.bits(); 6]);
                if is_sound(&words) && words[1] == 0 {
                    way = Way {
                        words,
                        epochs: Some(Vec::new()),
                    };
                }
            }
            // On from a made-up trip that is nearly full.
            2..=3 => {
                both.whole(&way);
                way.words = [
                    rate(random).max(1).into(),
                    FULL - random.below(9),
                    7,
                    9,
                    0,
                    1,
                ];
                way.epochs = None;
            }
            4..=9 => both.whole(&way),
            10..=299 => both.ask(way.words, random.bits() as u32, random.bits()),
            300..=399 => drop(both.start(rate(random), [random.bits(); 6])),
            400..=8_191 => {
                let trip = made_up(random);
                match random.below(4) {
                    0 => both.ask(
                        trip,
                        random.bits() as u32 >> random.below(32),
                        random.bits(),
                    ),
                    _ => drop(both.add(trip, displacement(random), pulses(random))),
                }
            }
            _ => {
                let (delta, pulses) = (displacement(random), pulses(random));
                let before = way.words;
                way.words = both.add(before, delta, pulses);
                if let (Some(epochs), true) = (&mut way.epochs, way.words[1] > before[1]) {
                    epochs.push((millimetres(length(&delta)), pulses));
                    longest = longest.max(epochs.len());
                }
                full += u64::from(before[1] < FULL && way.words[1] == FULL);
            }
        }
    }
    both.whole(&way);
    tally.note(format!(
        "{numbers}; trips that became full: {full}; the longest from its start: {longest} epochs"
    ));
}

/// The same in plain Rust, as a call, since ours is.
#[inline(never)]
fn rust_add(trip: &mut Words, delta: &[f64; 3], pulses: u16) -> u8 {
    let long = length(delta);
    let [rate, epochs, carrier, count, greatest, reached] = *trip;
    let sound = rate.wrapping_sub(1) < 65_535
        && epochs <= FULL
        && carrier <= 1_000_000 * epochs
        && count <= 65_535 * epochs;
    let measurable = delta.iter().all(|x| x.is_finite()) && long <= 1000.0;
    if !sound || epochs == FULL || !measurable {
        return 16;
    }
    let carrier = carrier + millimetres(long);
    let count = count + u64::from(pulses);
    let apart = carrier.abs_diff(count * 1_000_000 / rate);
    let (greatest, reached) = if epochs == 0 || apart > greatest {
        (apart, epochs + 1)
    } else {
        (greatest, reached)
    };
    *trip = [rate, epochs + 1, carrier, count, greatest, reached];
    0
}

fn time(random: &mut Random) {
    let given: Vec<([f64; 3], u16)> = (0..1024)
        .map(|_| {
            (
                std::array::from_fn(|_| 30.0 * random.unit()),
                random.below(80) as u16,
            )
        })
        .collect();
    let mut trip = [4000, 0, 0, 0, 0, 0];
    let mut theirs = trip;
    bench::row(
        "trip: an epoch more",
        1,
        given.len(),
        || {
            trip = [4000, 0, 0, 0, 0, 0];
            for (delta, pulses) in &given {
                black_box(ffi::trip_add(&mut trip, delta, *pulses));
            }
            black_box(&trip);
        },
        || {
            theirs = [4000, 0, 0, 0, 0, 0];
            for (delta, pulses) in &given {
                black_box(rust_add(&mut theirs, delta, *pulses));
            }
            black_box(&theirs);
        },
    );
}

/// Trip 6, displacement 3, pulses, millilitres; number of the addition and the trip 6 after it, number of that one's report and the report 4, number of its
/// fuel and the fuel (zeros where refused).
pub fn vectors(random: &mut Random) -> Vectors {
    let mut given: Vec<(Words, [f64; 3], u16, u32)> = Vec::new();
    for (k, x) in LENGTHS.iter().enumerate() {
        let mut delta = [0.0; 3];
        delta[k % 3] = *x;
        given.push(([1000, 2, 2_000_000, 9, 1, 1], delta, 65_535, 850));
    }
    for _ in 0..300 {
        given.push((
            made_up(random),
            displacement(random),
            pulses(random),
            random.bits() as u32,
        ));
    }
    // Accepted ones last, of which the answers are turned in the altered copies.
    for k in 0..16 {
        given.push((
            [4000 + k, 3, 7001, 30 + k, 499, 2],
            [3.0, 4.0, k as f64],
            20,
            850,
        ));
    }
    let case = |(trip, delta, pulses, millilitres): (Words, [f64; 3], u16, u32)| {
        let handed = trip.into_iter().chain(delta.map(f64::to_bits));
        let handed = handed
            .chain([u64::from(pulses), u64::from(millilitres)])
            .collect();
        let number = |n: Option<u8>| u64::from(n.unwrap_or(0));
        let after = added(&trip, &delta, pulses);
        let now = after.unwrap_or(trip);
        let (report, fuel) = (reported(&now), fuelled(&now, millilitres));
        let mut stored = vec![number(after.err())];
        stored.extend(after.unwrap_or([0; 6]));
        stored.push(number(report.err()));
        stored.extend(report.unwrap_or([0; 4]));
        stored.extend([number(fuel.err()), fuel.unwrap_or(0)]);
        (handed, stored)
    };
    Vectors::of(given.into_iter().map(case).collect())
}
