//! The stored cases of the corrections: an epoch added to a table, a query, queries of one call, and the bands of an old table.

use super::damaged::damage;
use super::lent::{floats, in_range, widened, Epoch, Table};
use super::naming::Naming;
use super::past::answer;
use super::{epoch, odd, question, reference, refusal, settings};
use crate::random::{pattern, Random};
use crate::vectors::{of_each, raw, turned, Case, Vectors};
use drifters_gnss::differential::{Corrections, Settings};

/// How many blocks and samples a lent table of a case has room for.
const ROOM: usize = 32;

/// The blocks of a table: constellation, svid, band, first sample, how many.
pub fn blocks(t: &Table) -> Vec<u64> {
    (0..t.m.min(ROOM))
        .flat_map(|j| {
            let [c, v, b] = signal(t.dc[j], t.dv[j], t.db[j]);
            [c, v, b, t.df[j] as u64, t.dn[j] as u64]
        })
        .collect()
}

/// The samples of a table: time, correction.
fn readings(t: &Table) -> Vec<u64> {
    (0..t.n.min(ROOM))
        .flat_map(|i| [t.ts[i].to_bits(), t.xs[i].to_bits()])
        .collect()
}

/// A base, a rover, settings, how bands are named, and a table of what some epochs gave, zeros past its samples.
pub(super) type Session = ([f64; 3], [f64; 3], Settings, Naming, Vec<Epoch>, Table);

pub(super) fn session(random: &mut Random) -> Option<Session> {
    let base: [f64; 3] = [-2.7e6 + random.unit() * 1e5, -4.3e6, 3.85e6];
    let rover: [f64; 3] = std::array::from_fn(|i| base[i] + random.unit() * 1e4);
    let set = settings(random);
    let naming = Naming::of(random);
    let empty = Table {
        dc: vec![0; ROOM],
        dv: vec![0; ROOM],
        db: vec![0; ROOM],
        df: vec![0; ROOM],
        dn: vec![0; ROOM],
        m: 0,
        ts: vec![0.0; ROOM],
        xs: vec![0.0; ROOM],
        n: 0,
    };
    let count = random.place(4);
    let epochs: Vec<Epoch> = (0..count).map(|_| epoch(random, base, false)).collect();
    if epochs
        .iter()
        .any(|e| refusal(&empty, e, &base, &rover, &set) != 0)
    {
        return None;
    }
    let c = reference(&epochs, base, rover, &set);
    let table = || empty.with(&c.series, naming);
    (c.samples() <= ROOM).then(|| (base, rover, set, naming, epochs, table()))
}

/// A fault of the table, or one block or sample more than there is room for.
pub(super) fn spoil(random: &mut Random, t: &mut Table) {
    match random.below(4) {
        0 => t.n = ROOM + 1,
        1 => t.m = ROOM + 1,
        _ => damage(random, t),
    }
}

/// How many blocks, and each of them; how many samples, and each of them.
pub fn samples(t: &Table) -> Vec<u64> {
    let mut out = vec![t.m as u64];
    out.extend(blocks(t));
    out.push(t.n as u64);
    out.extend(readings(t));
    out
}

/// The numbers of a signal.
pub fn signal(c: u8, v: u16, b: u32) -> [u64; 3] {
    [u64::from(c), u64::from(v), u64::from(b)]
}

/// What is given beside the table: time, ranges, whether there are states, states, base 3, rover 3, gap, maximum, the enabled constellations as
/// bits; of each range, of 64 at most, constellation, svid, band, pseudorange; of each state, of 64 at most, constellation, svid, band, position
/// 3, velocity 3, clock, modelled.
fn handed(
    e: &Epoch,
    base: &[f64; 3],
    rover: &[f64; 3],
    set: &Settings,
    naming: Naming,
) -> Vec<u64> {
    let mut given = vec![e.time.to_bits(), e.ranges.len() as u64];
    given.extend([u64::from(e.present), e.states.len() as u64]);
    given.extend(raw(base).chain(raw(rover)));
    given.extend(raw(&[set.max_gap, set.max_correction]));
    let on = set.constellations.iter().enumerate();
    given.push(on.map(|(c, &on)| u64::from(on) << c).sum());
    for r in e.ranges.iter().take(64) {
        given.extend(signal(r.constellation, r.svid, naming.band(r.band)));
        given.push(r.pseudorange.to_bits());
    }
    for s in e.states.iter().take(64) {
        given.extend(signal(s.constellation, s.svid, naming.band(s.band)));
        given.extend(raw(&floats(s)));
    }
    given
}

/// Blocks 5 each and samples 2 each (32 at most), what is handed over beside them; number, blocks and samples afterwards.
fn epoch_case(random: &mut Random) -> Option<(u8, Case)> {
    let (mut base, rover, mut set, naming, mut epochs, whole) = session(random)?;
    let e = epoch(random, base, false);
    let mut table = whole.clone();
    match random.below(8) {
        0 => base[random.place(3)] = odd(random),
        1 => set.max_correction = odd(random),
        2 => spoil(random, &mut table),
        _ => {}
    }
    let few = |n: usize| n <= 14 || n == 65;
    if !(few(e.ranges.len()) && few(e.states.len())) {
        return None;
    }
    let mut number = refusal(&table, &e, &base, &rover, &set);
    let mut after = table.clone();
    if number == 0 {
        // Another base, another setting or another table is only for a call that is refused.
        let old = reference(&epochs, base, rover, &set);
        if old.samples() > ROOM || table.bits() != whole.with(&old.series, naming).bits() {
            return None;
        }
        epochs.push(e.clone());
        let c = reference(&epochs, base, rover, &set);
        if c.samples() > ROOM {
            number = 11;
        } else {
            after = table.with(&c.series, naming);
        }
    }
    let mut given = samples(&table);
    given.extend(handed(&e, &base, &rover, &set, naming));
    let mut answer = vec![u64::from(number)];
    answer.extend(samples(&after));
    Some((number, (given, answer)))
}

/// Epochs; the altered ones are copies of the last that leaves two blocks or three.
pub fn epochs(random: &mut Random) -> Vectors {
    let wanted = [(0, 18), (2, 3), (3, 2), (4, 5), (11, 3)];
    let cases = of_each(&wanted, || epoch_case(random));
    let short = |c: &&Case| c.1[0] == 0 && (2..4).contains(&c.1[1]);
    let last = cases.iter().rev().find(short).expect("a short table");
    let altered = (0..last.1.len()).map(|k| turned(last, k)).collect();
    Vectors { cases, altered }
}

/// A table for queries, whole or spoilt, and what the Rust answers of the whole one.
struct Asked {
    whole: Table,
    table: Table,
    corrections: Corrections,
    naming: Naming,
}

fn asked(random: &mut Random) -> Option<Asked> {
    let (base, rover, set, naming, epochs, whole) = session(random)?;
    let mut table = whole.clone();
    if random.below(8) == 0 {
        spoil(random, &mut table);
    }
    Some(Asked {
        corrections: reference(&epochs, base, rover, &set),
        whole,
        table,
        naming,
    })
}

impl Asked {
    /// The number of a call, for whatever signal and time; none where the Rust has no such table.
    fn call(&self, gap: f64) -> Option<u8> {
        match &self.table {
            t if t.crowded() => Some(2),
            _ if !in_range(gap) => Some(3),
            t if !t.sound() => Some(4),
            t => (t.bits() == self.whole.bits()).then_some(0),
        }
    }

    /// Number and metres of a signal and a time, where the call is accepted.
    fn place(&self, gap: f64, (c, v, b): (u8, u16, u32), time: f64) -> (u8, f64) {
        let theirs = Corrections {
            max_gap: gap,
            series: self.corrections.series.clone(),
        };
        let code = self.naming.code(b);
        match code.and_then(|b| answer(&theirs, (c, v, b), time)) {
            _ if time.is_finite() && !in_range(time) => (4, 0.0),
            None => (12, 0.0),
            Some(x) => (0, x),
        }
    }
}

/// Blocks 5 each, samples 2 each (32 at most), gap, constellation, svid, band, time; number, metres (0 where refused).
fn query_case(random: &mut Random) -> Option<(u8, Case)> {
    let asked = asked(random)?;
    let (key, time, gap) = question(random, &asked.whole);
    let (number, metres) = match asked.call(gap)? {
        0 => asked.place(gap, key, time),
        number => (number, 0.0),
    };
    let mut given = samples(&asked.table);
    given.push(gap.to_bits());
    given.extend(signal(key.0, key.1, key.2));
    given.push(time.to_bits());
    Some((number, (given, vec![u64::from(number), pattern(metres)])))
}

pub fn query(random: &mut Random) -> Vectors {
    let wanted = [(0, 20), (2, 2), (3, 2), (4, 4), (12, 10)];
    Vectors::of(of_each(&wanted, || query_case(random)))
}

/// How many queries a call has.
const QUERIES: usize = 5;

/// Blocks 5 each, samples 2 each (32 at most), gap, how many queries, of each constellation, svid, band, time; number, of each query its number and
/// metres (zeros where it or the call is refused).
fn queries_case(random: &mut Random) -> Option<(u8, Case)> {
    let asked = asked(random)?;
    let (_, _, gap) = question(random, &asked.whole);
    let number = asked.call(gap)?;
    let mut given = samples(&asked.table);
    given.extend([gap.to_bits(), QUERIES as u64]);
    let mut answer = vec![u64::from(number)];
    for _ in 0..QUERIES {
        let (key, time, _) = question(random, &asked.whole);
        given.extend(signal(key.0, key.1, key.2));
        given.push(time.to_bits());
        let (n, metres) = match number {
            0 => asked.place(gap, key, time),
            _ => (0, 0.0),
        };
        answer.extend([u64::from(n), pattern(metres)]);
    }
    Some((number, (given, answer)))
}

pub fn queries(random: &mut Random) -> Vectors {
    let wanted = [(0, 20), (2, 2), (3, 2), (4, 2)];
    Vectors::of(of_each(&wanted, || queries_case(random)))
}

/// How many bands a case of widening has room for.
const BANDS: usize = 8;

/// How many bands, the old column's length and the new one's, of 8 at most, the old column; number, 8 places of the new column afterwards, where a
/// place that is not written is 0.
fn widen_case(random: &mut Random) -> Option<(u8, Case)> {
    let narrow: Vec<u8> = (0..random.place(BANDS + 1))
        .map(|_| random.below(256) as u8)
        .collect();
    let wide = vec![0; random.place(BANDS + 1)];
    let n = match random.below(4) {
        0 => random.pick(&[2048, 2049, usize::MAX]),
        _ => random.place(BANDS + 2),
    };
    let (number, mut after) = widened(&narrow, n, &wide);
    after.resize(BANDS, 0);
    let mut given = vec![n as u64, narrow.len() as u64, wide.len() as u64];
    given.extend(narrow.iter().map(|&b| u64::from(b)));
    let mut answer = vec![u64::from(number)];
    answer.extend(after.iter().map(|&b| u64::from(b)));
    Some((number, (given, answer)))
}

pub fn widen(random: &mut Random) -> Vectors {
    let wanted = [(2, 10), (0, 20)];
    let mut cases = of_each(&wanted, || widen_case(random));
    cases.sort_by_key(|c| c.0[0]);
    Vectors::of(cases)
}
