//! Times in whole nanoseconds, against `GpsTime` of time.rs within 13: construction and both differences.

use super::Service;
use crate::numbers::Numbers;
use crate::random::{pattern, Random};
use crate::rules::{is_dated, is_time, LAST};
use crate::tally::{hex, Tally};
use crate::vectors::Vectors;
use crate::{bench, ffi};
use drifters_core::time::GpsTime;
use std::hint::black_box;

pub const SERVICE: Service = Service {
    name: "time",
    count: 1_000_000,
    compare,
    bench: Some(time),
};

/// The nanoseconds of a week.
pub const WEEK: u64 = 604_800_000_000_000;

/// Weeks at which something changes.
const WEEKS: [u32; 9] = [0, 1, 1316, 2047, 14_999, 15_000, 15_001, 1 << 31, u32::MAX];

/// Times of week at which something changes.
const TOWS: [f64; 24] = [
    0.0,
    -0.0,
    5e-324,
    -5e-324,
    f64::MIN_POSITIVE,
    -1e-9,
    4.999999999999999e-10,
    5e-10,
    5.000000000000001e-10,
    1e-9,
    0.5,
    1.0,
    604_799.5,
    604_799.999_999_999,
    604_799.999_999_999_9,
    604_800.0,
    604_801.0,
    -1.0,
    1e300,
    -1e300,
    f64::INFINITY,
    f64::NEG_INFINITY,
    f64::NAN,
    -f64::NAN,
];

/// Times at which something changes: the last one that 13 lets pass and its neighbours, the ends of
/// weeks, where a whole number stops being a double, and the ends of both widths.
pub const EDGES: [u64; 20] = [
    0,
    1,
    2,
    WEEK - 1,
    WEEK,
    WEEK + 1,
    (1 << 53) - 1,
    1 << 53,
    (1 << 53) + 1,
    (1 << 62) + 255,
    (1 << 62) + 257,
    15_000 * WEEK,
    LAST - 1,
    LAST,
    LAST + 1,
    i64::MAX as u64 - 1,
    i64::MAX as u64,
    i64::MAX as u64 + 1,
    u64::MAX - 1,
    u64::MAX,
];

/// A float up to three patterns off x.
fn about(random: &mut Random, x: f64) -> f64 {
    f64::from_bits(
        x.to_bits()
            .wrapping_add_signed(i64::from(random.between(-3, 3))),
    )
}

/// A time of week: next to a whole or half nanosecond, next to an edge, of an ordinary size, any float.
fn tow(random: &mut Random) -> f64 {
    match random.below(8) {
        0..=2 => {
            let nanos = random.below(WEEK) >> random.between(0, 49);
            let half = if random.below(2) == 0 { 0.5 } else { 0.0 };
            about(random, (nanos as f64 + half) / 1e9)
        }
        3 => {
            let edge = random.pick(&TOWS);
            about(random, edge)
        }
        4 => random.float(),
        _ => 302_400.0 * (1.0 + random.unit()),
    }
}

fn week(random: &mut Random) -> u32 {
    match random.below(8) {
        0 => random.pick(&WEEKS),
        1 => random.bits() as u32,
        _ => random.below(15_001) as u32,
    }
}

/// A time in nanoseconds, most often one that 13 lets pass.
fn nanos(random: &mut Random) -> u64 {
    match random.below(8) {
        0 => random.pick(&EDGES),
        1 => random.bits() >> random.below(64),
        2 => (WEEK * random.below(15_002)).wrapping_add_signed(i64::from(random.between(-3, 3))),
        _ => random.below(LAST + 1),
    }
}

/// Two times: apart by a number of nanoseconds that lies next to the middle of two doubles, or any two.
fn two(random: &mut Random) -> [u64; 2] {
    let first = nanos(random);
    let second = match random.below(4) {
        0 => {
            let top = random.between(50, 62);
            let low = 1u64 << random.below(top as u64);
            let apart = ((1u64 << top) + low).wrapping_add_signed(i64::from(random.between(-1, 1)));
            first.wrapping_add(apart)
        }
        1 => first.wrapping_add(random.bits() >> random.between(2, 63)),
        _ => nanos(random),
    };
    match random.below(2) {
        0 => [first, second],
        _ => [second, first],
    }
}

/// The time by the Rust, or 13.
fn built(week: u32, tow: f64) -> Result<u64, u8> {
    let time = || GpsTime::new(week, tow).nanos();
    is_time(week, tow).then(time).ok_or(13)
}

/// Nanoseconds and seconds by the Rust, or 13.
fn apart([later, earlier]: [u64; 2]) -> Result<(i64, f64), u8> {
    let [a, b] = [later, earlier].map(GpsTime::from_nanos);
    let both = || (a.nanos_since(b), a.seconds_since(b));
    (is_dated(later) && is_dated(earlier)).then(both).ok_or(13)
}

/// The library's time beside the Rust's; a refusal leaves what is lent.
fn judge_time(tally: &mut Tally, numbers: &mut Numbers, week: u32, tow: f64, lent: u64) {
    let mut ours = lent;
    let number = ffi::time(week, tow, &mut ours);
    let theirs = built(week, tow);
    numbers.count(theirs.err().unwrap_or(0));
    let expected = (theirs.err().unwrap_or(0), theirs.unwrap_or(lent));
    tally.judge((number, ours) == expected, || {
        let given = hex([u64::from(week), tow.to_bits(), lent]);
        format!(
            "a time of {given}: ours {:?}, Rust's {expected:?}",
            (number, ours)
        )
    });
}

/// The same of both differences.
fn judge_two(tally: &mut Tally, numbers: &mut Numbers, two: [u64; 2], lent: u64) {
    let [later, earlier] = two;
    let mut nanos = lent as i64;
    let mut seconds = f64::from_bits(lent);
    let ours = [
        ffi::nanos_since(later, earlier, &mut nanos),
        ffi::seconds_since(later, earlier, &mut seconds),
    ];
    let theirs = apart(two);
    let number = theirs.err().unwrap_or(0);
    numbers.count(number);
    let (n, s) = theirs.map_or((lent, lent), |(n, s)| (n as u64, s.to_bits()));
    let same = ours == [number; 2] && [nanos as u64, seconds.to_bits()] == [n, s];
    tally.judge(same, || {
        let given = hex([later, earlier, lent]);
        let came = hex([nanos as u64, seconds.to_bits()]);
        format!(
            "between {given}: ours {ours:?}, {came}, Rust's {number}, {}",
            hex([n, s])
        )
    });
}

/// Every edge with every other first, then times and differences in turn.
fn compare(tally: &mut Tally, random: &mut Random, count: u64) {
    let mut numbers = Numbers::default();
    for week in WEEKS {
        let tows = TOWS.iter().flat_map(|&x| [x, x.next_down(), x.next_up()]);
        tows.for_each(|tow| judge_time(tally, &mut numbers, week, tow, random.bits()));
    }
    for later in EDGES {
        EDGES.iter().for_each(|&earlier| {
            judge_two(tally, &mut numbers, [later, earlier], random.bits());
        });
    }
    for place in 0..count {
        let lent = random.bits();
        if place % 2 == 0 {
            let (week, tow) = (week(random), tow(random));
            judge_time(tally, &mut numbers, week, tow, lent);
        } else {
            let two = two(random);
            judge_two(tally, &mut numbers, two, lent);
        }
    }
    tally.note(format!("{numbers}"));
}

/// The Rust's as calls, since ours are.
#[inline(never)]
fn rust_time(week: u32, tow: f64) -> u64 {
    GpsTime::new(week, tow).nanos()
}

#[inline(never)]
fn rust_nanos(later: u64, earlier: u64) -> i64 {
    GpsTime::from_nanos(later).nanos_since(GpsTime::from_nanos(earlier))
}

#[inline(never)]
fn rust_seconds(later: u64, earlier: u64) -> f64 {
    GpsTime::from_nanos(later).seconds_since(GpsTime::from_nanos(earlier))
}

fn time(random: &mut Random) {
    let given: Vec<(u32, f64)> = (0..1024)
        .map(|_| {
            (
                random.below(15_001) as u32,
                302_399.0 * (1.0 + random.unit()),
            )
        })
        .collect();
    let twos: Vec<[u64; 2]> = (0..1024)
        .map(|_| std::array::from_fn(|_| random.below(LAST + 1)))
        .collect();
    let (mut nanos, mut since, mut seconds) = (0, 0, 0.0);
    bench::row(
        "time",
        1,
        given.len(),
        || {
            for &(week, tow) in &given {
                black_box(ffi::time(week, tow, &mut nanos));
                black_box(&nanos);
            }
        },
        || {
            for &(week, tow) in &given {
                black_box(rust_time(week, tow));
            }
        },
    );
    bench::row(
        "nanos since",
        1,
        twos.len(),
        || {
            for &[a, b] in &twos {
                black_box(ffi::nanos_since(a, b, &mut since));
                black_box(&since);
            }
        },
        || {
            for &[a, b] in &twos {
                black_box(rust_nanos(a, b));
            }
        },
    );
    bench::row(
        "seconds since",
        1,
        twos.len(),
        || {
            for &[a, b] in &twos {
                black_box(ffi::seconds_since(a, b, &mut seconds));
                black_box(&seconds);
            }
        },
        || {
            for &[a, b] in &twos {
                black_box(rust_seconds(a, b));
            }
        },
    );
}

/// Week, time of week, number, nanoseconds (0 where refused).
pub fn times(random: &mut Random) -> Vectors {
    let edges = WEEKS
        .iter()
        .flat_map(|&w| TOWS.iter().map(move |&x| (w, x)));
    let mut given: Vec<(u32, f64)> = edges.collect();
    given.extend((0..200).map(|_| (week(random), tow(random))));
    // An accepted one last, whose time is turned in the altered copy.
    given.push((1316, 604_799.5));
    let case = |(week, tow): (u32, f64)| {
        let (number, nanos) = match built(week, tow) {
            Ok(nanos) => (0, nanos),
            Err(number) => (u64::from(number), 0),
        };
        (vec![u64::from(week), tow.to_bits()], vec![number, nanos])
    };
    Vectors::of(given.into_iter().map(case).collect())
}

/// Later, earlier, number, nanoseconds, seconds (zeros where refused).
pub fn since(random: &mut Random) -> Vectors {
    let edges = EDGES
        .iter()
        .flat_map(|&a| EDGES.iter().map(move |&b| [a, b]));
    let mut given: Vec<[u64; 2]> = edges.collect();
    given.extend((0..200).map(|_| two(random)));
    given.extend([[WEEK, WEEK - 7], [7, WEEK], [WEEK, 7]]);
    let case = |two: [u64; 2]| {
        let stored = match apart(two) {
            Ok((nanos, seconds)) => [0, nanos as u64, pattern(seconds)],
            Err(number) => [u64::from(number), 0, 0],
        };
        (two.to_vec(), stored.to_vec())
    };
    Vectors::of(given.into_iter().map(case).collect())
}
