//! Request (x): sessions of epochs, drops and queries against a plain model that never drops, and every byte of the table after each drop against the
//! rule itself. The Rust has no drop.

use super::damaged::damage;
use super::lent::{in_range, Columns, Epoch, Table};
use super::naming::Naming;
use super::past::answer;
use super::stored::{samples, session as stored_session, spoil};
use super::{epoch, odd, question, reference, refusal, settings, Service};
use crate::bench;
use crate::random::Random;
use crate::tally::Tally;
use crate::vectors::{of_each, turned, Case, Vectors};
use drifters_gnss::differential::{Corrections, Settings};
use std::collections::BTreeMap;
use std::hint::black_box;
use zaqnuti::sys::zaqnuti_forget;

pub const SERVICE: Service = Service {
    name: "forget",
    count: 400_000,
    compare,
    bench: Some(time),
};

type Series = BTreeMap<(u8, u16, u8), Vec<(f64, f64)>>;

impl Table {
    pub fn forget(&mut self, time: f64) -> u8 {
        // SAFETY: each pointer comes with its length, and those that are written are ours alone.
        unsafe {
            zaqnuti_forget(
                self.dc.as_ptr(),
                self.dc.len(),
                self.dv.as_ptr(),
                self.dv.len(),
                self.db.as_ptr(),
                self.db.len(),
                self.df.as_mut_ptr(),
                self.df.len(),
                self.dn.as_mut_ptr(),
                self.dn.len(),
                self.m,
                self.ts.as_mut_ptr(),
                self.ts.len(),
                self.xs.as_mut_ptr(),
                self.xs.len(),
                &mut self.n,
                time,
            )
        }
    }

    /// Numbers 2, 4 and 18 of a drop, 0 where none applies.
    pub fn forget_number(&self, time: f64) -> u8 {
        match () {
            () if self.crowded() => 2,
            () if !self.sound() => 4,
            () if !time.is_finite() => 18,
            () => 0,
        }
    }

    /// A sound table after a drop, by the rule: of each block's samples earlier than the time only the last stays, and past the samples the bytes stay.
    pub fn forgotten(&self, time: f64) -> Self {
        let mut after = self.clone();
        (after.m, after.n) = (0, 0);
        for j in 0..self.m {
            let places = self.df[j]..self.df[j] + self.dn[j];
            let block: Vec<(f64, f64)> = places.map(|i| (self.ts[i], self.xs[i])).collect();
            after.block(self.name(j), &retained(&block, time));
        }
        after
    }
}

/// What is retained of one series.
fn retained(series: &[(f64, f64)], time: f64) -> Vec<(f64, f64)> {
    let last = series.iter().rposition(|s| s.0 < time);
    let stays = |(i, s): (usize, &(f64, f64))| {
        let earlier = s.0 < time;
        (!earlier || Some(i) == last).then_some(*s)
    };
    series.iter().enumerate().filter_map(stays).collect()
}

/// One series more for each signal of an epoch, in the order of time, those of equal times as they came.
pub(super) fn put(series: &mut Series, new: &Series) {
    for (key, samples) in new {
        let own = series.entry(*key).or_default();
        own.extend(samples);
        own.sort_by(|a, b| a.0.total_cmp(&b.0));
    }
}

fn size(series: &Series) -> usize {
    series.values().map(Vec::len).sum()
}

/// A table, what is retained in it, and what a table would have from which nothing was ever dropped.
struct Session {
    base: [f64; 3],
    rover: [f64; 3],
    set: Settings,
    naming: Naming,
    table: Table,
    left: Corrections,
    all: Corrections,
    /// The time of the latest drop, and whether every addition since a drop was not earlier than it.
    latest: f64,
    whole: bool,
    /// The time that goes on, and how often it is another.
    now: f64,
    strays: bool,
}

/// What was compared: calls by kind, their numbers, queries at or after a drop and those before one, and samples dropped.
#[derive(Default)]
struct Seen {
    calls: u64,
    epochs: u64,
    drops: u64,
    since: u64,
    before: u64,
    found: u64,
    dropped: u64,
    full: u64,
    numbers: [u64; 19],
}

impl Seen {
    fn number(&mut self, number: u8) {
        self.calls += 1;
        self.numbers[usize::from(number)] += 1;
    }
}

impl Session {
    fn start(random: &mut Random) -> Self {
        let base: [f64; 3] = [-2.7e6 + random.unit() * 1e5, -4.3e6, 3.85e6];
        let none = || Corrections {
            series: Series::new(),
            max_gap: 90.0,
        };
        let small = random.below(2) == 0;
        let lengths = std::array::from_fn(|_| {
            if small {
                8 + random.place(120)
            } else {
                600 + random.place(1500)
            }
        });
        Self {
            base,
            rover: std::array::from_fn(|i| base[i] + random.unit() * 1e4),
            set: settings(random),
            naming: Naming::of(random),
            table: Table::lent(lengths),
            left: none(),
            all: none(),
            latest: f64::NEG_INFINITY,
            whole: true,
            now: f64::from(random.between(-10, 10)) * 30.0,
            strays: random.below(4) == 0,
        }
    }

    /// An epoch, at the time that goes on or at another.
    fn add(&mut self, tally: &mut Tally, random: &mut Random, seen: &mut Seen) {
        let mut e: Epoch = epoch(random, self.base, false);
        let stray = self.strays && random.below(3) == 0;
        if !stray && e.time.is_finite() && in_range(e.time) {
            e.time = self.now;
            self.now += random.pick(&[0.0, 30.0, 30.0, 30.0, 0.5, 1e-7]);
        }
        let mut number = refusal(&self.table, &e, &self.base, &self.rover, &self.set);
        let mut expected = self.table.clone();
        let before = self.table.n;
        if number == 0 {
            let one = std::slice::from_ref(&e);
            let new = reference(one, self.base, self.rover, &self.set).series;
            if size(&self.left.series) + size(&new) > self.table.capacity() {
                number = 11;
                seen.full += 1;
            } else {
                put(&mut self.left.series, &new);
                put(&mut self.all.series, &new);
                self.whole &= new.is_empty() || !(e.time < self.latest);
                expected = expected.with(&self.left.series, self.naming);
            }
        }
        let columns = Columns::of(&e, self.naming);
        let ours = columns.add(&mut self.table, &self.base, &self.rover, &self.set);
        seen.number(number);
        seen.epochs += u64::from(number == 0);
        let same = ours == number && self.table.bits() == expected.bits();
        tally.judge(same, || {
            format!(
                "an epoch at {} to {before} samples: our number {ours}, expected {number}",
                e.time
            )
        });
    }

    /// A drop, at times of a table with a fault, of more than there is room for, or before no finite time.
    fn drop(&mut self, tally: &mut Tally, random: &mut Random, seen: &mut Seen) {
        let sound = self.table.clone();
        match random.below(12) {
            0 => damage(random, &mut self.table),
            1 => match random.below(2) {
                0 => self.table.n = self.table.capacity() + 1,
                _ => self.table.m = self.table.capacity() + 1,
            },
            _ => {}
        }
        let whole = self.table.bits() == sound.bits();
        let at = if sound.n > 0 {
            sound.ts[random.place(sound.n)]
        } else {
            0.0
        };
        let time = match random.below(12) {
            0 => random.pick(&[f64::NAN, f64::INFINITY, f64::NEG_INFINITY]),
            1 => random.pick(&[0.0, -0.0, 1e300, -1e300, f64::MAX, 1e9]),
            2 => odd(random),
            3 | 4 => at,
            5 => at.next_up(),
            6 => at.next_down(),
            7 => self.now + random.unit() * 600.0,
            _ => self.now - random.unit() * 300.0,
        };
        let number = self.table.forget_number(time);
        if number == 0 && !whole {
            // Damaged and yet sound: the rule is asked of that table alone.
            let expected = self.table.forgotten(time);
            let ours = self.table.forget(time);
            seen.number(0);
            tally.judge(ours == 0 && self.table.bits() == expected.bits(), || {
                format!("a drop before {time} of a table in another order: our number {ours}")
            });
            self.table = sound;
            return;
        }
        let mut expected = self.table.clone();
        if number == 0 {
            for series in self.left.series.values_mut() {
                *series = retained(series, time);
            }
            expected = expected.with(&self.left.series, self.naming);
            self.latest = if self.latest < time {
                time
            } else {
                self.latest
            };
            seen.dropped += (sound.n - expected.n) as u64;
        }
        let ours = self.table.forget(time);
        seen.number(number);
        seen.drops += u64::from(number == 0);
        let same = ours == number && self.table.bits() == expected.bits();
        tally.judge(same, || {
            format!("a drop before {time} of {} samples: our number {ours}, expected {number}, {} samples against {}", sound.n, self.table.n, expected.n)
        });
        if !whole || !same {
            self.table = sound;
        }
    }

    /// Queries: at or after the latest drop they answer as if nothing had been dropped, before it as what is retained does.
    fn ask(&mut self, tally: &mut Tally, random: &mut Random, seen: &mut Seen) {
        for _ in 0..16 {
            let (key, mut time, gap) = question(random, &self.table);
            if random.below(4) == 0 && self.latest.is_finite() {
                time = random.pick(&[
                    self.latest,
                    self.latest.next_up(),
                    self.latest + 5e-7,
                    self.latest + 15.0,
                ]);
            }
            let since = self.whole && !(time < self.latest);
            let known = if since { &mut self.all } else { &mut self.left };
            known.max_gap = gap;
            let theirs = self
                .naming
                .code(key.2)
                .and_then(|b| answer(known, (key.0, key.1, b), time));
            let number = match theirs {
                _ if !in_range(gap) => 3,
                _ if time.is_finite() && !in_range(time) => 4,
                None => 12,
                Some(_) => 0,
            };
            let (ours, metres) = self.table.query(gap, key, time);
            seen.number(number);
            seen.found += u64::from(number == 0);
            if self.latest > f64::NEG_INFINITY {
                *(if since {
                    &mut seen.since
                } else {
                    &mut seen.before
                }) += 1;
            }
            let same = ours == number
                && match theirs {
                    Some(x) if number == 0 => metres.to_bits() == x.to_bits(),
                    _ => metres == -1.5e300,
                };
            tally.judge(same, || {
                format!("{key:?} at {time}, the latest drop before {}: our number {ours}, {metres}; expected {number}, {theirs:?}", self.latest)
            });
        }
    }
}

fn compare(tally: &mut Tally, random: &mut Random, count: u64) {
    let mut seen = Seen::default();
    while seen.calls < count {
        let mut s = Session::start(random);
        for _ in 0..30 {
            match random.below(4) {
                0 | 1 => s.add(tally, random, &mut seen),
                2 => s.drop(tally, random, &mut seen),
                _ => {}
            }
            s.ask(tally, random, &mut seen);
        }
    }
    tally.note(format!(
        "{} epochs and {} drops accepted, {} samples dropped, {} epochs for which there was no room, {} queries at or after a drop and {} before one, {} corrections found, by number {:?}",
        seen.epochs, seen.drops, seen.dropped, seen.full, seen.since, seen.before, seen.found, &seen.numbers[2..]
    ));
}

/// Blocks 5 each and samples 2 each (32 at most), the time; number, blocks and samples afterwards.
fn case(random: &mut Random) -> Option<(u8, Case)> {
    let (_, _, _, _, _, mut table) = stored_session(random)?;
    if random.below(6) == 0 {
        spoil(random, &mut table);
    }
    let at = if (1..=32).contains(&table.n) {
        table.ts[random.place(table.n)]
    } else {
        0.0
    };
    let time = match random.below(8) {
        0 => random.pick(&[f64::NAN, f64::INFINITY, f64::NEG_INFINITY]),
        1 => at,
        2 => at.next_up(),
        3 => random.pick(&[1e300, -1e300, 0.0, -0.0]),
        _ => at + random.unit() * 100.0,
    };
    let number = table.forget_number(time);
    let after = if number == 0 {
        table.forgotten(time)
    } else {
        table.clone()
    };
    let mut given = samples(&table);
    given.push(time.to_bits());
    let mut answer = vec![u64::from(number)];
    answer.extend(samples(&after));
    Some((number, (given, answer)))
}

/// Drops; the altered ones are copies of the last that leaves two blocks or three.
pub fn vectors(random: &mut Random) -> Vectors {
    let wanted = [(0, 24), (2, 3), (4, 5), (18, 4)];
    let cases = of_each(&wanted, || case(random));
    let short = |c: &&Case| c.1[0] == 0 && (2..4).contains(&c.1[1]);
    let last = cases.iter().rev().find(short).expect("a short table");
    let altered = (0..last.1.len()).map(|k| turned(last, k)).collect();
    Vectors { cases, altered }
}

/// A full table of 32 signals, from which nothing goes: the test and the one pass; beside it the same of series by themselves.
fn time(_random: &mut Random) {
    let mut series: Series = (0..32)
        .map(|v| {
            (
                (1, v, 1),
                (0..64)
                    .map(|i| (f64::from(i) * 30.0, f64::from(i)))
                    .collect(),
            )
        })
        .collect();
    let mut table = Table::lent([2048; 7]).with(&series, Naming::PLAIN);
    bench::row(
        "forget",
        table.n,
        1,
        || {
            black_box(table.forget(black_box(15.0)));
        },
        || {
            for samples in series.values_mut() {
                let front = samples.iter().take_while(|s| s.0 < black_box(15.0)).count();
                samples.drain(..front.saturating_sub(1));
            }
            black_box(&series);
        },
    );
}
