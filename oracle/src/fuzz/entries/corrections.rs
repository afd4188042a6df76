//! A base epoch, a query, many of them, and the bands of an old table.

use super::{column, count, floats, signal, sys};
use crate::fuzz::lent::{Lender, Lent};
use crate::fuzz::Bytes;
use crate::services::corrections::naming::Naming;
use crate::services::corrections::{self, lent as base, past};
use drifters_gnss::differential::{self, Corrections, SatelliteState};
use drifters_gnss::rinex::BaseRange;

pub(super) type Sample = (u8, u16, u32, f64, f64);

/// In the table's order.
fn order(a: &Sample, b: &Sample) -> std::cmp::Ordering {
    (a.0, a.1, a.2)
        .cmp(&(b.0, b.1, b.2))
        .then(a.3.total_cmp(&b.3))
}

/// How bands are named.
pub(super) fn naming(b: &mut Bytes) -> Naming {
    let far = usize::from(b.byte());
    *Naming::FAR.get(far % 8).unwrap_or(&Naming::PLAIN)
}

/// Few samples, sorted or not.
pub(super) fn rows(b: &mut Bytes, naming: Naming) -> Vec<Sample> {
    let n = b.below(40);
    let sorted = b.byte() > 20;
    b.plain_above(40);
    // Series of so many samples, so far apart, as a base station has them.
    let even = (b.byte() < 100).then(|| (1 + b.below(20), f64::from(b.byte()) / 8.0));
    let mut samples: Vec<Sample> = (0..n)
        .map(|i| {
            if let Some((run, step)) = even {
                let time = (i % run) as f64 * step;
                return (1, (i / run) as u16, naming.band(0), time, b.float());
            }
            let (c, v) = signal(b);
            let band = naming.band(b.byte() & 1);
            let time = if b.byte() < 200 {
                f64::from(b.byte())
            } else {
                b.float()
            };
            (c, v & 3, band, time, b.float())
        })
        .collect();
    if sorted {
        samples.sort_by(order);
    }
    samples
}

/// A table of few samples, sorted or not, in columns that may be longer or shorter.
pub(super) fn table(b: &mut Bytes, naming: Naming) -> base::Table {
    let samples = rows(b, naming);
    let n = samples.len();
    let room = n + b.below(80);
    let mut t = base::Table::lent(std::array::from_fn(|_| room + b.below(3)));
    lay(&mut t, &samples);
    // A fault of the directory, or none.
    let j = b.below(t.m.max(1));
    match b.byte() {
        255 if t.m > 0 => t.df[j] = b.u64() as usize,
        254 if t.m > 0 => t.dn[j] = b.u64() as usize,
        252..=253 if t.m > 0 => t.df[j] = b.below(n + 2),
        250..=251 if t.m > 0 => t.dn[j] = b.below(n + 2),
        248..=249 if t.m > 0 => t.dv[j] ^= 1 << b.below(3),
        _ => {}
    }
    t.m = match b.byte() {
        255 => b.u64() as usize,
        254 => t.capacity() + 1,
        252..=253 => b.below(n + 1),
        _ => t.m,
    };
    t.n = match b.byte() {
        255 => b.u64() as usize,
        254 => t.capacity() + 1,
        252..=253 => b.below(n + 1),
        _ => n,
    };
    t
}

/// The samples laid in the table's columns, a block for each run of one signal.
fn lay(t: &mut base::Table, samples: &[Sample]) {
    (t.m, t.n) = (0, 0);
    for run in samples.chunk_by(|a, b| (a.0, a.1, a.2) == (b.0, b.1, b.2)) {
        let readings: Vec<(f64, f64)> = run.iter().map(|s| (s.3, s.4)).collect();
        t.block((run[0].0, run[0].1, run[0].2), &readings);
    }
}

/// The samples of a sound table.
fn samples(t: &base::Table) -> Vec<Sample> {
    let row = |i: usize| {
        let (c, v, b) = t.name(t.holding(i));
        (c, v, b, t.ts[i], t.xs[i])
    };
    (0..t.n).map(row).collect()
}

/// The table's columns, lent.
pub(super) struct Columns {
    pub(super) dc: Lent<u8>,
    pub(super) dv: Lent<u16>,
    pub(super) db: Lent<u32>,
    pub(super) df: Lent<usize>,
    pub(super) dn: Lent<usize>,
    pub(super) ts: Lent<f64>,
    pub(super) xs: Lent<f64>,
}

impl Columns {
    pub(super) fn lend(lender: &mut Lender, t: &base::Table) -> Self {
        Self {
            dc: lender.lend(&t.dc),
            dv: lender.lend(&t.dv),
            db: lender.lend(&t.db),
            df: lender.lend(&t.df),
            dn: lender.lend(&t.dn),
            ts: lender.lend(&t.ts),
            xs: lender.lend(&t.xs),
        }
    }

    /// They must hold what the table has, to the last bit.
    pub(super) fn hold(&self, t: &base::Table) {
        self.dc.holds(&t.dc);
        self.dv.holds(&t.dv);
        self.db.holds(&t.db);
        self.df.holds(&t.df);
        self.dn.holds(&t.dn);
        self.ts.holds(&t.ts);
        self.xs.holds(&t.xs);
    }
}

pub fn add_epoch(b: &mut Bytes) {
    let naming = naming(b);
    let t = table(b, naming);
    let usual = b.byte() > 60;
    let place = |b: &mut Bytes| -> [f64; 3] {
        if usual {
            [-2.7e6, -4.3e6 + f64::from(b.byte()), 3.85e6]
        } else {
            b.three()
        }
    };
    let (from, to) = (place(b), place(b));
    let state = |b: &mut Bytes| {
        let (constellation, svid) = signal(b);
        SatelliteState {
            constellation,
            svid: svid & 3,
            band: b.byte() & 1,
            position: b.three().map(|x| if usual { 1e7 + x } else { x }),
            velocity: b.three(),
            clock: b.float(),
            modelled: b.float(),
        }
    };
    let m = b.below(20);
    let mut states: Vec<SatelliteState> = (0..m).map(|_| state(b)).collect();
    let range = |b: &mut Bytes| {
        let picked = (m > 0 && b.byte() < 220).then(|| states[b.below(m)]);
        let (constellation, svid) = picked.map_or_else(|| signal(b), |s| (s.constellation, s.svid));
        BaseRange {
            constellation,
            svid,
            band: picked.map_or_else(|| b.byte() & 1, |s| s.band),
            pseudorange: if usual { 2e7 + b.float() } else { b.float() },
        }
    };
    let k = b.below(20);
    let mut ranges: Vec<BaseRange> = (0..k).map(|_| range(b)).collect();
    match b.byte() {
        255 if k > 0 => ranges = (0..65).map(|i| ranges[i % k].clone()).collect(),
        254 if m > 0 => states = (0..65).map(|i| states[i % m]).collect(),
        _ => {}
    }
    let set = differential::Settings {
        max_gap: b.float(),
        max_correction: if b.flag() { 1e9 } else { b.float() },
        constellations: std::array::from_fn(|_| b.byte() < 230),
    };
    let mut epoch = base::Epoch {
        time: if b.flag() {
            f64::from(b.byte())
        } else {
            b.float()
        },
        ranges,
        present: b.byte() < 230,
        states,
    };
    let rc = column(b, &epoch.ranges, |r| r.constellation);
    let rv = column(b, &epoch.ranges, |r| r.svid);
    let rb = column(b, &epoch.ranges, |r| naming.band(r.band));
    let rp = column(b, &epoch.ranges, |r| r.pseudorange);
    let sc = column(b, &epoch.states, |s| s.constellation);
    let sv = column(b, &epoch.states, |s| s.svid);
    let sb = column(b, &epoch.states, |s| naming.band(s.band));
    let sf = floats(b, &epoch.states, base::floats);
    let (k, m) = (count(b, epoch.ranges.len()), count(b, epoch.states.len()));
    let wanted = if epoch.present { m } else { 0 };
    let short = [rc.len(), rv.len(), rb.len(), rp.len()]
        .iter()
        .any(|&n| n < k)
        || [sc.len(), sv.len(), sb.len(), sf.len() / 8]
            .iter()
            .any(|&n| n < wanted);
    let fits = k <= 64 && wanted <= 64 && !short;
    if fits && (k > epoch.ranges.len() || wanted > epoch.states.len()) {
        return;
    }
    if fits {
        epoch.ranges.truncate(k);
        epoch.states.truncate(wanted);
    }
    let mut number = if fits {
        corrections::refusal(&t, &epoch, &from, &to, &set)
    } else {
        2
    };
    let mut after = t.clone();
    if number == 0 {
        let one = corrections::reference(std::slice::from_ref(&epoch), from, to, &set);
        let mut all = samples(&t);
        for ((c, v, code), series) in &one.series {
            let band = naming.band(*code);
            all.extend(series.iter().map(|(time, x)| (*c, *v, band, *time, *x)));
        }
        all.sort_by(order);
        if all.len() > t.capacity() {
            number = 11;
        } else {
            lay(&mut after, &all);
        }
    }
    let mut lender = Lender::new();
    let cols = Columns::lend(&mut lender, &t);
    let (blocks, n) = (lender.lend(&[t.m]), lender.lend(&[t.n]));
    let (rc, rv, rb, rp) = (
        lender.lend(&rc),
        lender.lend(&rv),
        lender.lend(&rb),
        lender.lend(&rp),
    );
    let (sc, sv, sb, sf) = (
        lender.lend(&sc),
        lender.lend(&sv),
        lender.lend(&sb),
        lender.lend(&sf),
    );
    let (at, to_at) = (lender.lend(&from), lender.lend(&to));
    let on = lender.lend(&set.constellations);
    // SAFETY: each pointer leads to what its length or its type says.
    let ours = unsafe {
        sys::zaqnuti_add_epoch(
            cols.dc.at(),
            cols.dc.len(),
            cols.dv.at(),
            cols.dv.len(),
            cols.db.at(),
            cols.db.len(),
            cols.df.at(),
            cols.df.len(),
            cols.dn.at(),
            cols.dn.len(),
            blocks.at(),
            cols.ts.at(),
            cols.ts.len(),
            cols.xs.at(),
            cols.xs.len(),
            n.at(),
            epoch.time,
            k,
            rc.at(),
            rc.len(),
            rv.at(),
            rv.len(),
            rb.at(),
            rb.len(),
            rp.at(),
            rp.len(),
            epoch.present,
            m,
            sc.at(),
            sc.len(),
            sv.at(),
            sv.len(),
            sb.at(),
            sb.len(),
            sf.at(),
            sf.len(),
            at.at().cast(),
            to_at.at().cast(),
            set.max_gap,
            set.max_correction,
            on.at().cast(),
        )
    };
    assert_eq!(ours, number);
    cols.hold(&after);
    blocks.holds(&[after.m]);
    n.holds(&[after.n]);
    rc.kept();
    rv.kept();
    rb.kept();
    rp.kept();
    sc.kept();
    sv.kept();
    sb.kept();
    sf.kept();
    at.kept();
    to_at.kept();
    on.kept();
}

/// A signal and a time that may be asked of the table.
fn question(b: &mut Bytes, t: &base::Table) -> (u8, u16, u32, f64) {
    let known = t.capacity().min(t.m);
    let picked = (known > 0 && b.byte() < 230).then(|| b.below(known));
    let (c, v, band) = match picked {
        Some(j) => {
            // At times another band, which differs in one bit.
            let turned = b.byte();
            let (c, v, band) = t.name(j);
            (c, v, band ^ (u32::from(turned > 240) << (turned % 32)))
        }
        _ => (b.byte(), b.u16(), b.u32()),
    };
    let time = match b.byte() {
        0..=99 => f64::from(b.byte()),
        100..=149 => f64::from(b.byte()) + b.float() * 1e-6,
        150..=199 => f64::from(b.u16()) / 256.0,
        _ => b.float(),
    };
    (c, v, band, time)
}

fn gap_limit(b: &mut Bytes) -> f64 {
    if b.flag() {
        f64::from(b.byte())
    } else {
        b.float()
    }
}

/// The corrections that the Rust has of a sound table.
fn series(t: &base::Table, naming: Naming, gap: f64) -> Corrections {
    let mut series = std::collections::BTreeMap::<_, Vec<(f64, f64)>>::new();
    for (c, v, b, time, x) in samples(t) {
        let code = naming.code(b).expect("a band of the table");
        series.entry((c, v, code)).or_default().push((time, x));
    }
    Corrections {
        series,
        max_gap: gap,
    }
}

/// The number of a query of a sound table, and its metres.
fn answer(
    c: &Corrections,
    naming: Naming,
    (k, v, band, time): (u8, u16, u32, f64),
) -> (u8, Option<f64>) {
    if time.is_finite() && !base::in_range(time) {
        return (4, None);
    }
    let metres = naming
        .code(band)
        .and_then(|code| past::answer(c, (k, v, code), time));
    // A query's time that is not finite meets 12.
    assert!(time.is_finite() || metres.is_none());
    assert!(metres.is_none_or(f64::is_finite));
    (if metres.is_some() { 0 } else { 12 }, metres)
}

pub fn query(b: &mut Bytes) {
    let naming = naming(b);
    let t = table(b, naming);
    let asked = question(b, &t);
    let gap = gap_limit(b);
    let (number, metres) = if t.crowded() {
        (2, None)
    } else if !base::in_range(gap) {
        (3, None)
    } else if !t.sound() {
        (4, None)
    } else {
        answer(&series(&t, naming, gap), naming, asked)
    };
    let mut lender = Lender::new();
    let cols = Columns::lend(&mut lender, &t);
    let out = lender.lend(&[f64::from_bits(b.u64())]);
    let (c, v, band, time) = asked;
    // SAFETY: each pointer leads to what its length or its type says.
    let ours = unsafe {
        sys::zaqnuti_query(
            cols.dc.at(),
            cols.dc.len(),
            cols.dv.at(),
            cols.dv.len(),
            cols.db.at(),
            cols.db.len(),
            cols.df.at(),
            cols.df.len(),
            cols.dn.at(),
            cols.dn.len(),
            t.m,
            cols.ts.at(),
            cols.ts.len(),
            cols.xs.at(),
            cols.xs.len(),
            t.n,
            gap,
            c,
            v,
            band,
            time,
            out.at(),
        )
    };
    assert_eq!(ours, number);
    cols.hold(&t);
    match metres {
        Some(x) => out.holds(&[x]),
        None => out.kept(),
    }
}

pub fn queries(b: &mut Bytes) {
    let naming = naming(b);
    let t = table(b, naming);
    let gap = gap_limit(b);
    let each: Vec<_> = (0..b.below(24)).map(|_| question(b, &t)).collect();
    let (c, v) = (column(b, &each, |q| q.0), column(b, &each, |q| q.1));
    let (band, time) = (column(b, &each, |q| q.2), column(b, &each, |q| q.3));
    let mut numbers = column(b, &each, |_| 77u8);
    let mut metres = column(b, &each, |_| -1.5e300);
    let count = count(b, each.len());
    let room = c.len().min(v.len()).min(band.len()).min(time.len());
    let room = room.min(numbers.len()).min(metres.len());
    let mut lender = Lender::new();
    let cols = Columns::lend(&mut lender, &t);
    let (lc, lv) = (lender.lend(&c), lender.lend(&v));
    let (lb, lt) = (lender.lend(&band), lender.lend(&time));
    let (ln, lm) = (lender.lend(&numbers), lender.lend(&metres));
    let number = if t.crowded() || count > room {
        2
    } else if !base::in_range(gap) {
        3
    } else if !t.sound() {
        4
    } else {
        let known = series(&t, naming, gap);
        for i in 0..count {
            let (number, found) = answer(&known, naming, (c[i], v[i], band[i], time[i]));
            numbers[i] = number;
            metres[i] = found.unwrap_or(metres[i]);
        }
        0
    };
    // SAFETY: each pointer leads to what its length says.
    let ours = unsafe {
        sys::zaqnuti_queries(
            cols.dc.at(),
            cols.dc.len(),
            cols.dv.at(),
            cols.dv.len(),
            cols.db.at(),
            cols.db.len(),
            cols.df.at(),
            cols.df.len(),
            cols.dn.at(),
            cols.dn.len(),
            t.m,
            cols.ts.at(),
            cols.ts.len(),
            cols.xs.at(),
            cols.xs.len(),
            t.n,
            gap,
            lc.at(),
            lc.len(),
            lv.at(),
            lv.len(),
            lb.at(),
            lb.len(),
            lt.at(),
            lt.len(),
            count,
            ln.at(),
            ln.len(),
            lm.at(),
            lm.len(),
        )
    };
    assert_eq!(ours, number);
    cols.hold(&t);
    lc.kept();
    lv.kept();
    lb.kept();
    lt.kept();
    ln.holds(&numbers);
    lm.holds(&metres);
}

pub fn widen_bands(b: &mut Bytes) {
    // Short columns, and those at the end of what a table may hold.
    let start = if b.byte() > 230 { 2040 } else { 0 };
    let narrow: Vec<u8> = (0..start + b.below(20))
        .map(|i| b.byte() ^ i as u8)
        .collect();
    let wide: Vec<u32> = (0..start + b.below(20)).map(|_| b.u32()).collect();
    let n = match b.byte() {
        255 => b.u64() as usize,
        _ => start + b.below(20),
    };
    let (number, after) = base::widened(&narrow, n, &wide);
    let mut lender = Lender::new();
    let (from, to) = (lender.lend(&narrow), lender.lend(&wide));
    // SAFETY: each pointer leads to what its length says.
    let ours = unsafe { sys::zaqnuti_widen_bands(from.at(), from.len(), n, to.at(), to.len()) };
    assert_eq!(ours, number);
    from.kept();
    to.holds(&after);
}
