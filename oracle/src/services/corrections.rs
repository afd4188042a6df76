//! Corrections: sessions of base epochs and queries against the published `build` and `at`, the whole table after each epoch. The Rust has bands up
//! to 255; in half of the sessions they stand for bands past it.

pub mod damaged;
pub mod forget;
pub mod lent;
pub mod naming;
pub mod past;
pub mod stored;

use self::damaged::damage;
use self::lent::{floats, in_range, widen, widened, Asked, Columns, Epoch, Out, Table};
use self::naming::Naming;
use self::past::{answer, just_past, times_past};
use super::Service;
use crate::bench;
use crate::random::Random;
use crate::tally::Tally;
use drifters_gnss::differential::{build, Corrections, SatelliteState, Settings};
use drifters_gnss::rinex::{Base, BaseEpoch, BaseRange};
use std::collections::BTreeMap;
use std::hint::black_box;

pub const SERVICE: Service = Service {
    name: "corrections",
    count: 400_000,
    compare,
    bench: Some(time),
};

/// What the Rust builds of the epochs.
pub fn reference(epochs: &[Epoch], base: [f64; 3], rover: [f64; 3], set: &Settings) -> Corrections {
    let mut states = epochs.iter().map(|e| e.present.then(|| e.states.clone()));
    let station = station(epochs, base);
    build(&station, rover, |_| states.next().unwrap(), set)
}

/// Numbers 2 to 4 of an epoch and the table, 0 where none applies.
pub fn refusal(t: &Table, e: &Epoch, base: &[f64; 3], rover: &[f64; 3], set: &Settings) -> u8 {
    let states: &[SatelliteState] = if e.present { &e.states } else { &[] };
    if t.crowded() || e.ranges.len() > 64 || states.len() > 64 {
        return 2;
    }
    if !(in_range(set.max_gap) && in_range(set.max_correction)) {
        return 3;
    }
    let coordinates = base.iter().chain(rover).all(|&x| in_range(x));
    let records = e.ranges.iter().all(|r| in_range(r.pseudorange))
        && states
            .iter()
            .all(|s| floats(s).iter().all(|&x| in_range(x)));
    if !(coordinates && in_range(e.time) && records && t.sound()) {
        return 4;
    }
    0
}

/// A float that numbers 3 and 4 refuse, or that stands at their edge.
pub fn odd(random: &mut Random) -> f64 {
    random.pick(&[
        f64::NAN,
        f64::INFINITY,
        -f64::INFINITY,
        1e9,
        -1e9,
        1.000_000_001e9,
        -1e10,
        0.0,
        -0.0,
    ])
}

fn epoch(random: &mut Random, base: [f64; 3], wide: bool) -> Epoch {
    let signal = |random: &mut Random| {
        let c = if random.below(8) == 0 {
            random.below(12) as u8
        } else {
            random.pick(&[1, 1, 6, 7])
        };
        (
            c,
            1 + random.below(if wide { 40 } else { 6 }) as u16,
            random.pick(&[1, 1, 2, 2, 255]),
        )
    };
    let place = |random: &mut Random, size: f64| -> [f64; 3] {
        std::array::from_fn(|_| random.unit() * size)
    };
    let m = random.place(65);
    let mut states: Vec<SatelliteState> = (0..m)
        .map(|_| {
            let (constellation, svid, band) = signal(random);
            SatelliteState {
                constellation,
                svid,
                band,
                position: place(random, 2.6e7),
                velocity: place(random, 4e3),
                clock: random.unit() * 1e5,
                modelled: random.unit() * 30.0,
            }
        })
        .collect();
    let k = if random.below(4) == 0 {
        random.place(8)
    } else {
        random.place(65)
    };
    let offset = random.unit() * 1e4;
    let mut ranges: Vec<BaseRange> = (0..k)
        .map(|_| {
            let (constellation, svid, band) = match states.is_empty() {
                false if random.below(8) > 0 => {
                    let s = random.pick(&states);
                    (s.constellation, s.svid, s.band)
                }
                _ => signal(random),
            };
            let known = states
                .iter()
                .find(|s| (s.constellation, s.svid, s.band) == (constellation, svid, band));
            let distance = known.map_or(2e7, |s| {
                let d: f64 = (0..3)
                    .map(|i| (s.position[i] - base[i]).powi(2))
                    .sum::<f64>()
                    .sqrt();
                d - s.clock + s.modelled
            });
            BaseRange {
                constellation,
                svid,
                band,
                pseudorange: distance + offset + random.unit() * random.pick(&[1.0, 50.0, 300.0]),
            }
        })
        .collect();
    let time = match random.below(8) {
        0 => 0.0,
        1 => -0.0,
        2 => random.unit() * 1e6,
        _ => f64::from(random.between(-4, 12)) * 30.0,
    };
    let mut e = Epoch {
        time,
        ranges: Vec::new(),
        present: random.below(10) > 0,
        states: Vec::new(),
    };
    match random.below(40) {
        0 if k > 0 => ranges[random.place(k)].pseudorange = odd(random),
        1 if m > 0 => states[random.place(m)].position[random.place(3)] = odd(random),
        2 if m > 0 => states[random.place(m)].velocity[random.place(3)] = odd(random),
        3 if m > 0 => states[random.place(m)].clock = odd(random),
        4 if m > 0 => states[random.place(m)].modelled = odd(random),
        5 => e.time = odd(random),
        6 if k > 0 => {
            let r = ranges[0].clone();
            ranges.resize(65, r);
        }
        7 if m > 0 => {
            let s = states[0];
            states.resize(65, s);
        }
        _ => {}
    }
    e.ranges = ranges;
    e.states = states;
    e
}

fn settings(random: &mut Random) -> Settings {
    let mut set = Settings {
        max_gap: random.pick(&[0.0, 30.0, 60.0, 90.0, 1e9, -1.0]),
        max_correction: random.pick(&[0.0, 5.0, 100.0, 100.0, 1e4, 1e9, -1.0]),
        constellations: [true; 8],
    };
    if random.below(3) == 0 {
        set.constellations = std::array::from_fn(|_| random.below(4) > 0);
    }
    set
}

/// What was compared: calls and places, their numbers, corrections found, and those of them just past a last sample.
#[derive(Default)]
struct Seen {
    done: u64,
    numbers: [u64; 13],
    found: u64,
    past: u64,
}

impl Seen {
    fn number(&mut self, number: u8) {
        self.done += 1;
        self.numbers[usize::from(number)] += 1;
    }
}

fn compare(tally: &mut Tally, random: &mut Random, count: u64) {
    let (mut seen, mut accepted) = (Seen::default(), 0);
    while seen.done < count {
        let base: [f64; 3] = [-2.7e6 + random.unit() * 1e5, -4.3e6, 3.85e6];
        let rover: [f64; 3] = std::array::from_fn(|i| base[i] + random.unit() * 1e4);
        let set = settings(random);
        let wide = random.below(2) == 0;
        let small = random.below(3) == 0;
        let lengths = std::array::from_fn(|_| {
            if small {
                8 + random.place(120)
            } else {
                1500 + random.place(700)
            }
        });
        let naming = Naming::of(random);
        let mut table = Table::lent(lengths);
        let mut epochs: Vec<Epoch> = Vec::new();
        for _ in 0..12 {
            let mut e = epoch(random, base, wide);
            let (mut b, mut r, mut s) = (base, rover, set);
            match random.below(60) {
                0 => b[random.place(3)] = odd(random),
                1 => r[random.place(3)] = odd(random),
                2 => s.max_gap = odd(random),
                3 => s.max_correction = odd(random),
                _ => {}
            }
            if (b, r) != (base, rover)
                || s.max_gap.to_bits() != set.max_gap.to_bits()
                || s.max_correction.to_bits() != set.max_correction.to_bits()
            {
                // Another base, rover or setting is only for a call that is refused.
                if refusal(&table, &e, &b, &r, &s) == 0 {
                    (b, r, s) = (base, rover, set);
                }
            }
            if !e.present && random.below(2) == 0 {
                // What lies beside the mark is not looked at.
                if let Some(s) = e.states.first_mut() {
                    s.clock = f64::NAN;
                }
            }
            // A damaged table, mended afterwards.
            let whole = table.clone();
            if random.below(8) == 0 {
                damage(random, &mut table);
            }
            match random.below(100) {
                0 => table.n = table.capacity() + 1,
                1 => table.m = table.capacity() + 1,
                _ => {}
            }
            let before = table.clone();
            let mut number = refusal(&table, &e, &b, &r, &s);
            let damaged = before.bits() != whole.bits();
            if number == 0 && damaged {
                // Damaged and yet sound: no call, since the Rust has no such table.
                table = whole;
                continue;
            }
            let mut expected = before.clone();
            if number == 0 {
                epochs.push(e.clone());
                let c = reference(&epochs, base, rover, &set);
                if c.samples() > table.capacity() {
                    number = 11;
                    epochs.pop();
                } else {
                    expected = before.with(&c.series, naming);
                    accepted += 1;
                }
            }
            let ours = Columns::of(&e, naming).add(&mut table, &b, &r, &s);
            seen.number(number);
            let same = ours == number && table.bits() == expected.bits();
            tally.judge(same, || {
                format!(
                    "an epoch at {} of {} ranges and {} states to {} samples: our number {ours}, expected {number}, {} samples against {}",
                    e.time,
                    e.ranges.len(),
                    e.states.len(),
                    before.n,
                    table.n,
                    expected.n
                )
            });
            if damaged || !same {
                table = whole;
            }
            let c = reference(&epochs, base, rover, &set);
            let theirs = (&c, naming);
            queries(tally, random, &table, theirs, &mut seen);
            many(tally, random, &table, theirs, &mut seen);
        }
        let (table, c) = long(random, naming);
        queries(tally, random, &table, (&c, naming), &mut seen);
        many(tally, random, &table, (&c, naming), &mut seen);
        old_bands(tally, random, &table, &mut seen);
    }
    tally.note(format!(
        "{accepted} epochs accepted, {} calls and places, {} corrections found, {} of them just past a last sample, by number {:?}",
        seen.done,
        seen.found,
        seen.past,
        &seen.numbers[2..]
    ));
}

/// What a query may ask of a table: signal, time and gap limit.
fn question(random: &mut Random, whole: &Table) -> ((u8, u16, u32), f64, f64) {
    let i = random.place(whole.n.max(1));
    let j = random.place(whole.n.max(1));
    let key = if whole.n > 0 && random.below(10) > 0 {
        // At times another band, which differs in one bit.
        let turned = u32::from(random.below(20) == 0) << random.below(32);
        let (c, v, b) = whole.name(whole.holding(i));
        (c, v, b ^ turned)
    } else {
        (
            random.below(9) as u8,
            random.below(7) as u16,
            random.below(3) as u32,
        )
    };
    let at = if whole.n > 0 { whole.ts[i] } else { 30.0 };
    let other = if whole.n > 0 { whole.ts[j] } else { 60.0 };
    let time = match random.below(10) {
        0 => at,
        1 => at + random.pick(&[5e-7, -5e-7, 1e-6, -1e-6, 2e-6, -2e-6]),
        8 | 9 => times_past(random, whole, i),
        2 => random.pick(&[
            f64::NAN,
            f64::INFINITY,
            f64::NEG_INFINITY,
            2e9,
            -2e9,
            1e9,
            0.0,
            -0.0,
        ]),
        3 => at + 15.0,
        4 => (at + other) / 2.0,
        _ => at + random.unit() * 60.0,
    };
    let gap = match random.below(8) {
        0 => (at - other).abs(),
        1 => odd(random),
        _ => random.pick(&[30.0, 60.0, 90.0, 1e6]),
    };
    (key, time, gap)
}

fn queries(
    tally: &mut Tally,
    random: &mut Random,
    whole: &Table,
    (c, naming): (&Corrections, Naming),
    seen: &mut Seen,
) {
    for _ in 0..20 {
        let mut table = whole.clone();
        if random.below(10) == 0 {
            damage(random, &mut table);
        }
        let (key, time, gap) = question(random, whole);
        match random.below(120) {
            0 => table.n = table.capacity() + 1,
            1 => table.m = table.capacity() + 1,
            _ => {}
        }
        let known = Corrections {
            max_gap: gap,
            ..c.clone()
        };
        let code = naming.code(key.2);
        let theirs = code.and_then(|b| answer(&known, (key.0, key.1, b), time));
        let damaged = table.bits() != whole.bits();
        let number = match theirs {
            _ if table.crowded() => 2,
            _ if !in_range(gap) => 3,
            _ if !table.sound() || (time.is_finite() && !in_range(time)) => 4,
            _ if damaged => continue,
            None => 12,
            Some(_) => 0,
        };
        let (ours, metres) = table.query(gap, key, time);
        seen.number(number);
        let same = ours == number
            && match theirs {
                Some(x) if number == 0 => metres.to_bits() == x.to_bits() && metres.is_finite(),
                _ => metres == -1.5e300,
            };
        seen.found += u64::from(number == 0);
        let past = code.and_then(|b| just_past(&known, (key.0, key.1, b), time));
        seen.past += u64::from(number == 0 && past.is_some());
        tally.judge(same, || format!("{key:?} at {time} with the gap {gap}: our number {ours}, {metres}; expected {number}, {theirs:?}"));
    }
}

/// A table of long series, mostly at even times, and what the Rust has of it.
fn long(random: &mut Random, naming: Naming) -> (Table, Corrections) {
    let mut series = BTreeMap::<_, Vec<(f64, f64)>>::new();
    let mut left = random.place(2048);
    while left > 0 {
        let key = (
            random.below(4) as u8,
            random.below(40) as u16,
            random.below(3) as u8,
        );
        let most = random.pick(&[3, 20, 200, 2048]);
        let n = 1 + random.place(left.min(most));
        let step = random.pick(&[30.0, 30.0, 1.0, 0.1, 1e-7, 0.0]);
        let missing = random.pick(&[0, 0, 3, 30]);
        let start = random.pick(&[0.0, -3e4, 5e5]);
        let samples: Vec<(f64, f64)> = (0..n)
            .filter(|_| random.below(100) >= missing)
            .map(|i| (start + i as f64 * step, (i % 97) as f64 - 40.0))
            .collect();
        if !samples.is_empty() && !series.contains_key(&key) {
            series.insert(key, samples);
        }
        left -= n;
    }
    let c = Corrections {
        series,
        max_gap: 90.0,
    };
    (Table::lent([2048; 7]).with(&c.series, naming), c)
}

/// Many queries of one call, each place against `at`, and what no place is for against what was there.
fn many(
    tally: &mut Tally,
    random: &mut Random,
    whole: &Table,
    (c, naming): (&Corrections, Naming),
    seen: &mut Seen,
) {
    let mut table = whole.clone();
    if random.below(8) == 0 {
        damage(random, &mut table);
    }
    let (_, _, gap) = question(random, whole);
    let each: Vec<_> = (0..random.place(40))
        .map(|_| question(random, whole))
        .map(|(key, t, _)| (key, t))
        .collect();
    let mut asked = Asked::of(&each);
    let count = each.len();
    let mut out = Out::room(count + random.place(3));
    let short = count > 0 && random.below(20) == 0;
    if short {
        match random.below(6) {
            0 => drop(asked.c.pop()),
            1 => drop(asked.v.pop()),
            2 => drop(asked.b.pop()),
            3 => drop(asked.t.pop()),
            4 => out.numbers.truncate(count - 1),
            _ => out.metres.truncate(count - 1),
        }
    }
    match random.below(80) {
        0 => table.n = table.capacity() + 1,
        1 => table.m = table.capacity() + 1,
        _ => {}
    }
    let damaged = table.bits() != whole.bits();
    let number = match () {
        () if table.crowded() || short => 2,
        () if !in_range(gap) => 3,
        () if !table.sound() => 4,
        () if damaged => return,
        () => 0,
    };
    let mut expected = out.clone();
    if number == 0 {
        let c = Corrections {
            max_gap: gap,
            ..c.clone()
        };
        for (i, &((k, v, b), t)) in each.iter().enumerate() {
            let theirs = naming.code(b).and_then(|b| answer(&c, (k, v, b), t));
            let past = naming.code(b).and_then(|b| just_past(&c, (k, v, b), t));
            seen.past += u64::from(past.is_some() && in_range(t));
            expected.numbers[i] = match theirs {
                _ if t.is_finite() && !in_range(t) => 4,
                None => 12,
                Some(x) => {
                    expected.metres[i] = x;
                    seen.found += 1;
                    0
                }
            };
            seen.number(expected.numbers[i]);
        }
    }
    let ours = table.queries(gap, &asked, count, &mut out);
    seen.number(number);
    tally.judge(ours == number && out.bits() == expected.bits(), || {
        format!("{count} queries of {} samples with the gap {gap}: our number {ours}, expected {number}; {:?}", table.n, out.numbers)
    });
}

/// The bands of a table that was written with 8 bits for each, in columns that may be too short.
fn old_bands(tally: &mut Tally, random: &mut Random, table: &Table, seen: &mut Seen) {
    let mut narrow: Vec<u8> = (0..table.n)
        .map(|i| table.db[table.holding(i)] as u8)
        .collect();
    narrow.truncate(table.n + random.place(3));
    let n = match random.below(8) {
        0 => table.n + random.place(5),
        1 => {
            narrow.resize(2050, 3);
            2048 + random.place(3)
        }
        _ => table.n,
    };
    let mut wide = vec![0x5A5A_5A5A; (n + random.place(4)).saturating_sub(1)];
    let (number, expected) = widened(&narrow, n, &wide);
    let ours = widen(&narrow, n, &mut wide);
    seen.number(number);
    tally.judge(ours == number && wide == expected, || {
        format!(
            "{n} bands of {} into {} places: our number {ours}, expected {number}",
            narrow.len(),
            wide.len()
        )
    });
}

fn time(random: &mut Random) {
    let base = [-2.7e6, -4.3e6, 3.85e6];
    let rover = [-2.69e6, -4.3e6, 3.85e6];
    let set = Settings {
        max_gap: 90.0,
        max_correction: 100.0,
        constellations: [true; 8],
    };
    // Thirty-two ranges of distinct signals, each with its state.
    let mut one = |time: f64| {
        let states: Vec<SatelliteState> = (0..32)
            .map(|i| SatelliteState {
                constellation: if i < 16 { 1 } else { 6 },
                svid: i,
                band: 1,
                position: std::array::from_fn(|_| random.unit() * 2.6e7),
                velocity: std::array::from_fn(|_| random.unit() * 4e3),
                clock: random.unit() * 1e5,
                modelled: random.unit() * 30.0,
            })
            .collect();
        let ranges = states
            .iter()
            .map(|s| {
                let d: f64 = (0..3)
                    .map(|i| (s.position[i] - base[i]).powi(2))
                    .sum::<f64>()
                    .sqrt();
                BaseRange {
                    constellation: s.constellation,
                    svid: s.svid,
                    band: 1,
                    pseudorange: d - s.clock + s.modelled,
                }
            })
            .collect();
        Epoch {
            time,
            ranges,
            present: true,
            states,
        }
    };
    let epochs: Vec<Epoch> = (0..60).map(|i| one(f64::from(i) * 30.0)).collect();
    let first = Columns::of(&epochs[0], Naming::PLAIN);
    let alone = station(&epochs[..1], base);
    let states = &epochs[0].states;
    let mut table = Table::lent([2048; 7]);
    bench::row(
        "add an epoch",
        32,
        1,
        || {
            (table.m, table.n) = (0, 0);
            black_box(first.add(black_box(&mut table), &base, &rover, &set));
        },
        || {
            black_box(build(
                black_box(&alone),
                rover,
                |_| Some(states.clone()),
                &set,
            ));
        },
    );
    let later: Vec<Epoch> = (60..64).map(|i| one(f64::from(i) * 30.0)).collect();
    let mut full = Table::lent([2048; 7]);
    for e in &epochs {
        Columns::of(e, Naming::PLAIN).add(&mut full, &base, &rover, &set);
    }
    let c = reference(&epochs, base, rover, &set);
    more_epochs((&epochs, &later), (&full, &c), (&base, &rover), &set);
    // Signals and times that no predictor of branches learns.
    let each: Vec<((u8, u16, u32), f64)> = (0..4096)
        .map(|_| {
            let svid = random.below(32) as u16;
            (
                (if svid < 16 { 1 } else { 6 }, svid, 1),
                885.0 + random.unit() * 884.0,
            )
        })
        .collect();
    let single = &each[..64];
    bench::row(
        "query",
        full.n,
        single.len(),
        || {
            for (key, t) in single {
                black_box(full.query(90.0, *key, *t));
            }
        },
        || {
            for (key, t) in single {
                black_box(c.at(key.0, key.1, key.2 as u8, *t));
            }
        },
    );
    for count in [32, 4096] {
        each_of_one_call("queries of one call", &full, &c, &each[..count]);
    }
    for missing in [3, 10] {
        let mut part = c.clone();
        for samples in part.series.values_mut() {
            samples.retain(|_| random.below(100) >= missing);
        }
        let table = Table::lent([2048; 7]).with(&part.series, Naming::PLAIN);
        let name = format!("queries, {missing} % missing");
        each_of_one_call(&name, &table, &part, &each);
    }
}

/// Epochs more to a table of many; beside it the Rust's `build` of each by itself, its samples put into the series and these sorted, as `build` sorts
/// them, and then its `build` of all epochs up to each, which is its own way. Both sides begin anew with each round.
fn more_epochs(
    (epochs, later): (&[Epoch], &[Epoch]),
    (full, c): (&Table, &Corrections),
    (base, rover): (&[f64; 3], &[f64; 3]),
    set: &Settings,
) {
    let columns: Vec<Columns> = later
        .iter()
        .map(|e| Columns::of(e, Naming::PLAIN))
        .collect();
    let mut table = full.clone();
    let mut ours = || {
        table.ts[..full.n].copy_from_slice(&full.ts[..full.n]);
        table.xs[..full.n].copy_from_slice(&full.xs[..full.n]);
        table.df[..full.m].copy_from_slice(&full.df[..full.m]);
        table.dn[..full.m].copy_from_slice(&full.dn[..full.m]);
        (table.m, table.n) = (full.m, full.n);
        for e in &columns {
            assert_eq!(e.add(black_box(&mut table), base, rover, set), 0);
        }
    };
    let alone: Vec<Base> = later
        .iter()
        .map(|e| station(std::slice::from_ref(e), *base))
        .collect();
    let mut series = c.series.clone();
    let (size, calls) = (full.n, later.len());
    bench::row("add an epoch to a table", size, calls, &mut ours, || {
        for (own, old) in series.values_mut().zip(c.series.values()) {
            own.truncate(old.len());
        }
        for (e, one) in later.iter().zip(&alone) {
            let states = |_| Some(e.states.clone());
            forget::put(&mut series, &build(one, *rover, states, set).series);
        }
        black_box(&series);
    });
    let all: Vec<Epoch> = epochs.iter().chain(later).cloned().collect();
    let states = |tow: f64| {
        let at = all.iter().find(|e| e.time == tow);
        at.map(|e| e.states.clone())
    };
    let whole: Vec<Base> = (epochs.len() + 1..=all.len())
        .map(|n| station(&all[..n], *base))
        .collect();
    bench::row(
        "add an epoch, all built anew",
        size,
        calls,
        &mut ours,
        || {
            for one in &whole {
                black_box(build(black_box(one), *rover, states, set));
            }
        },
    );
}

/// A base with these epochs.
fn station(epochs: &[Epoch], position: [f64; 3]) -> Base {
    let epoch = |e: &Epoch| BaseEpoch {
        tow: e.time,
        ranges: e.ranges.clone(),
    };
    Base {
        name: String::new(),
        position,
        epochs: epochs.iter().map(epoch).collect(),
    }
}

/// Many queries of one call against as many of the Rust's.
fn each_of_one_call(name: &str, table: &Table, c: &Corrections, each: &[((u8, u16, u32), f64)]) {
    let count = each.len();
    let asked = Asked::of(each);
    let mut out = Out::room(count);
    bench::row(
        name,
        count,
        count,
        || {
            black_box(table.queries(90.0, &asked, count, &mut out));
        },
        || {
            for (key, t) in each {
                black_box(c.at(key.0, key.1, key.2 as u8, *t));
            }
        },
    );
}
