//! The two forms of a table, each made of the other, against a plain model: the reference has neither. Sorted tables and damaged ones, directories
//! with each fault, and columns of every length; every bit of every lent column and count after every call.

use super::corrections::damaged::damage;
use super::corrections::lent::{in_range, Table};
use super::corrections::odd;
use super::corrections::stored::{blocks, samples, signal};
use super::Service;
use crate::bench;
use crate::random::Random;
use crate::tally::Tally;
use crate::vectors::{of_each, turned, Case, Vectors};
use std::hint::black_box;
use zaqnuti::sys::{zaqnuti_directory_of, zaqnuti_signals_of};

pub const SERVICE: Service = Service {
    name: "rearrange",
    count: 200_000,
    compare,
    bench: Some(time),
};

/// A table with a signal for each sample.
#[derive(Clone, Debug, PartialEq)]
pub struct Signals {
    pub cs: Vec<u8>,
    pub vs: Vec<u16>,
    pub bs: Vec<u32>,
}

impl Signals {
    pub fn lent(lengths: [usize; 3]) -> Self {
        Self {
            cs: vec![0x5A; lengths[0]],
            vs: vec![0x5A5A; lengths[1]],
            bs: vec![0xA5A5_A5A5; lengths[2]],
        }
    }

    fn name(&self, i: usize) -> (u8, u16, u32) {
        (self.cs[i], self.vs[i], self.bs[i])
    }

    fn shortest(&self) -> usize {
        self.cs.len().min(self.vs.len()).min(self.bs.len())
    }
}

/// Number 4 of the form without a directory.
fn sorted(s: &Signals, t: &Table) -> bool {
    (0..t.n).all(|i| in_range(t.ts[i]) && in_range(t.xs[i]))
        && (1..t.n).all(|i| {
            let names = s.name(i - 1).cmp(&s.name(i));
            names.then(t.ts[i - 1].total_cmp(&t.ts[i])).is_le()
        })
}

/// The directory of a sorted table, in its place.
fn file(s: &Signals, t: &mut Table) {
    t.m = 0;
    for i in 0..t.n {
        if i > 0 && s.name(i - 1) == s.name(i) {
            t.dn[t.m - 1] += 1;
            continue;
        }
        (t.dc[t.m], t.dv[t.m], t.db[t.m]) = s.name(i);
        (t.df[t.m], t.dn[t.m]) = (i, 1);
        t.m += 1;
    }
}

/// The signals of a sound table, in their places.
fn list(t: &Table, s: &mut Signals) {
    for j in 0..t.m {
        for i in t.df[j]..t.df[j] + t.dn[j] {
            (s.cs[i], s.vs[i], s.bs[i]) = t.name(j);
        }
    }
}

/// The directory by the model, or the refusal.
pub fn filed(s: &Signals, t: &Table) -> Result<Table, u8> {
    if t.n > t.capacity().min(s.shortest()) {
        return Err(2);
    }
    if !sorted(s, t) {
        return Err(4);
    }
    let mut out = t.clone();
    file(s, &mut out);
    Ok(out)
}

/// The signals by the model, or the refusal.
pub fn listed(t: &Table, into: &Signals) -> Result<Signals, u8> {
    // The columns of signals need a place for each sample, and none for an entry.
    if t.m.max(t.n) > t.capacity() || t.n > into.shortest() {
        return Err(2);
    }
    if !t.sound() {
        return Err(4);
    }
    let mut out = into.clone();
    list(t, &mut out);
    Ok(out)
}

fn directory_of(s: &Signals, t: &mut Table) -> u8 {
    // SAFETY: each pointer comes with its length, and the directory is ours alone.
    unsafe {
        zaqnuti_directory_of(
            s.cs.as_ptr(),
            s.cs.len(),
            s.vs.as_ptr(),
            s.vs.len(),
            s.bs.as_ptr(),
            s.bs.len(),
            t.ts.as_ptr(),
            t.ts.len(),
            t.xs.as_ptr(),
            t.xs.len(),
            t.n,
            t.dc.as_mut_ptr(),
            t.dc.len(),
            t.dv.as_mut_ptr(),
            t.dv.len(),
            t.db.as_mut_ptr(),
            t.db.len(),
            t.df.as_mut_ptr(),
            t.df.len(),
            t.dn.as_mut_ptr(),
            t.dn.len(),
            &mut t.m,
        )
    }
}

fn signals_of(t: &Table, s: &mut Signals) -> u8 {
    // SAFETY: each pointer comes with its length, and the last three columns are ours alone.
    unsafe {
        zaqnuti_signals_of(
            t.dc.as_ptr(),
            t.dc.len(),
            t.dv.as_ptr(),
            t.dv.len(),
            t.db.as_ptr(),
            t.db.len(),
            t.df.as_ptr(),
            t.df.len(),
            t.dn.as_ptr(),
            t.dn.len(),
            t.m,
            t.ts.as_ptr(),
            t.ts.len(),
            t.xs.as_ptr(),
            t.xs.len(),
            t.n,
            s.cs.as_mut_ptr(),
            s.cs.len(),
            s.vs.as_mut_ptr(),
            s.vs.len(),
            s.bs.as_mut_ptr(),
            s.bs.len(),
        )
    }
}

/// Lengths of columns for n samples: as long, longer, or one of them too short.
fn lengths<const N: usize>(random: &mut Random, n: usize) -> [usize; N] {
    let mut out = [n; N];
    for length in &mut out {
        *length += random.place(4);
    }
    if random.below(16) == 0 && n > 0 {
        out[random.place(N)] = n - 1;
    }
    out
}

/// A sorted table of few satellites; times come twice now and then, -0 beside +0 too.
fn table(random: &mut Random) -> (Signals, Table) {
    let n = match random.below(64) {
        0 => 0,
        1 => 2048,
        2 => 2049,
        _ => 1 + random.place(40),
    };
    let mut rows: Vec<(u8, u16, u32, f64)> = (0..n)
        .map(|_| {
            let time = match random.below(8) {
                0 => random.pick(&[0.0, -0.0, 1e9, -1e9, 5e-324]),
                _ => f64::from(random.between(-20, 20)) * 15.0,
            };
            (
                random.pick(&[0, 1, 6, 255]),
                random.pick(&[0, 3, 8, 65535]),
                random.pick(&[0, 1, 256, u32::MAX]),
                time,
            )
        })
        .collect();
    rows.sort_by(|a, b| {
        (a.0, a.1, a.2)
            .cmp(&(b.0, b.1, b.2))
            .then(a.3.total_cmp(&b.3))
    });
    let mut s = Signals::lent(lengths(random, n));
    let mut t = Table::lent(lengths(random, n));
    t.n = n;
    for (i, (c, v, b, time)) in rows.into_iter().enumerate() {
        if i < s.shortest() {
            (s.cs[i], s.vs[i], s.bs[i]) = (c, v, b);
        }
        if i < t.ts.len().min(t.xs.len()) {
            (t.ts[i], t.xs[i]) = (time, random.unit());
        }
    }
    if random.below(4) == 0 && n > 1 && s.shortest() >= n && t.capacity() >= n.min(2048) {
        let (i, j) = (random.place(n.min(2048)), random.place(n.min(2048)));
        match random.below(5) {
            0 => t.ts[i] = odd(random),
            1 => t.xs[i] = odd(random),
            2 => s.cs.swap(i, j),
            3 => s.vs.swap(i, j),
            _ => s.bs.swap(i, j),
        }
    }
    (s, t)
}

/// Now and then more entries than samples, up to the capacity or one above it.
fn crowd(random: &mut Random, t: &mut Table) {
    if random.below(16) == 0 {
        t.m = t.n + 1 + random.place((t.capacity() + 1).saturating_sub(t.n).max(1));
    }
}

fn compare(tally: &mut Tally, random: &mut Random, count: u64) {
    let mut numbers = [0u64; 3];
    for _ in 0..count / 2 {
        let (s, mut t) = table(random);
        let before = t.clone();
        let number = directory_of(&s, &mut t);
        let (want, after) = match filed(&s, &before) {
            Ok(after) => (0, after),
            Err(number) => (number, before.clone()),
        };
        numbers[usize::from(want) / 2] += 1;
        tally.judge(number == want && t.bits() == after.bits(), || {
            format!(
                "directory_of {s:?} {} samples: {number}, not {want}",
                before.n
            )
        });
        // The way back, from the directory made or from a damaged one.
        let mut from = after;
        if want == 0 && random.below(3) == 0 {
            damage(random, &mut from);
        }
        crowd(random, &mut from);
        let mut into = Signals::lent(lengths(random, from.n.min(2048)));
        let untouched = into.clone();
        let number = signals_of(&from, &mut into);
        let (want, after) = match listed(&from, &untouched) {
            Ok(after) => (0, after),
            Err(number) => (number, untouched),
        };
        numbers[usize::from(want) / 2] += 1;
        tally.judge(number == want && into == after, || {
            format!(
                "signals_of {} entries, {} samples: {number}, not {want}",
                from.m, from.n
            )
        });
    }
    tally.note(format!(
        "answered {}, refused by 2 {}, by 4 {}",
        numbers[0], numbers[1], numbers[2]
    ));
}

/// How many samples a stored case has at the most.
const ROOM: usize = 32;

/// How many samples, the lengths of the old columns 5 and of the directory's 5, each sample 5; number, and where it is 0 the directory's blocks 5 each
/// behind their count.
fn directory_case(random: &mut Random) -> Option<(u8, Case)> {
    let (s, t) = table(random);
    if t.n > ROOM {
        return None;
    }
    let old = [s.cs.len(), s.vs.len(), s.bs.len(), t.ts.len(), t.xs.len()];
    let new = [t.dc.len(), t.dv.len(), t.db.len(), t.df.len(), t.dn.len()];
    let mut given = vec![t.n as u64];
    given.extend(old.iter().chain(&new).map(|&length| length as u64));
    for i in 0..t.n {
        // Past the end of a short column zeros stand.
        let at = |x: Option<&f64>| x.map_or(0, |x| x.to_bits());
        let c = s.cs.get(i).map_or(0, |&c| c);
        let v = s.vs.get(i).map_or(0, |&v| v);
        let b = s.bs.get(i).map_or(0, |&b| b);
        given.extend(signal(c, v, b));
        given.extend([at(t.ts.get(i)), at(t.xs.get(i))]);
    }
    let (number, answer) = match filed(&s, &t) {
        Err(number) => (number, vec![number.into()]),
        Ok(d) => (0, [vec![0, d.m as u64], blocks(&d)].concat()),
    };
    Some((number, (given, answer)))
}

/// Directories of stored tables; the altered ones are copies of the last with two blocks or three.
pub fn directories(random: &mut Random) -> Vectors {
    let cases = of_each(&[(0, 18), (2, 6), (4, 8)], || directory_case(random));
    altered(cases, |answer| (2..4).contains(&answer[1]))
}

/// Blocks 5 each and samples 2 each (32 at most), the lengths of the three columns; number, and where it is 0 the signals 3 each.
fn signals_case(random: &mut Random) -> Option<(u8, Case)> {
    let (s, old) = table(random);
    let filed = filed(&s, &old).ok().filter(|t| t.n <= ROOM)?;
    let mut t = Table::lent([ROOM; 7]);
    for j in 0..filed.m {
        let places = filed.df[j]..filed.df[j] + filed.dn[j];
        let series: Vec<(f64, f64)> = places.map(|i| (filed.ts[i], filed.xs[i])).collect();
        t.block(filed.name(j), &series);
    }
    if random.below(3) == 0 {
        damage(random, &mut t);
    }
    crowd(random, &mut t);
    let into = Signals::lent(lengths(random, t.n));
    let mut given = samples(&t);
    given.extend([into.cs.len(), into.vs.len(), into.bs.len()].map(|length| length as u64));
    let (number, answer) = match listed(&t, &into) {
        Err(number) => (number, vec![number.into()]),
        Ok(s) => {
            let each = (0..t.n).flat_map(|i| signal(s.cs[i], s.vs[i], s.bs[i]));
            (0, [0].into_iter().chain(each).collect())
        }
    };
    Some((number, (given, answer)))
}

/// Signals of directories; the altered ones are copies of the last of two samples or three.
pub fn signals(random: &mut Random) -> Vectors {
    let cases = of_each(&[(0, 18), (2, 6), (4, 8)], || signals_case(random));
    altered(cases, |answer| (7..=10).contains(&answer.len()))
}

/// The cases, with a copy of the last accepted short one for each number of its answer.
fn altered(cases: Vec<Case>, short: impl Fn(&[u64]) -> bool) -> Vectors {
    let fits = |c: &&Case| c.1[0] == 0 && short(&c.1);
    let last = cases.iter().rev().find(fits).expect("a short table");
    let altered = (0..last.1.len()).map(|k| turned(last, k)).collect();
    Vectors { cases, altered }
}

/// A full table of 32 signals, both ways; beside it the model, whose tests of the table are the library's.
fn time(_random: &mut Random) {
    let mut ours = Table::lent([2048; 7]);
    for svid in 0..32 {
        let series: Vec<(f64, f64)> = (0..64)
            .map(|i| (f64::from(i) * 30.0, f64::from(i)))
            .collect();
        ours.block((1, svid, 1), &series);
    }
    let table = ours.clone();
    let mut theirs = ours.clone();
    let old = listed(&table, &Signals::lent([2048; 3])).expect("a sound table");
    bench::row(
        "directory_of",
        table.n,
        1,
        || {
            black_box(directory_of(black_box(&old), black_box(&mut ours)));
        },
        || {
            if sorted(black_box(&old), &theirs) {
                file(black_box(&old), black_box(&mut theirs));
            }
        },
    );
    let (mut ours, mut theirs) = (old.clone(), old);
    bench::row(
        "signals_of",
        table.n,
        1,
        || {
            black_box(signals_of(black_box(&table), black_box(&mut ours)));
        },
        || {
            if black_box(&table).sound() {
                list(black_box(&table), black_box(&mut theirs));
            }
        },
    );
}
