//! The lent table and one epoch's columns, and the entry points over them.

use super::naming::Naming;
use drifters_gnss::differential::{SatelliteState, Settings};
use drifters_gnss::rinex::BaseRange;
use std::collections::BTreeMap;
use zaqnuti::sys::{zaqnuti_add_epoch, zaqnuti_queries, zaqnuti_query, zaqnuti_widen_bands};

/// The lent columns: the directory's five with its count of blocks, and those of times and corrections with the count of samples.
#[derive(Clone)]
pub struct Table {
    pub dc: Vec<u8>,
    pub dv: Vec<u16>,
    pub db: Vec<u32>,
    pub df: Vec<usize>,
    pub dn: Vec<usize>,
    pub m: usize,
    pub ts: Vec<f64>,
    pub xs: Vec<f64>,
    pub n: usize,
}

/// Every bit of a table: names, places and counts of the blocks, times and corrections, and the two counts.
pub type Bits = (
    (Vec<u8>, Vec<u16>, Vec<u32>),
    (Vec<usize>, Vec<usize>),
    (Vec<u64>, Vec<u64>),
    (usize, usize),
);

/// One base epoch as it is handed over.
#[derive(Clone)]
pub struct Epoch {
    pub time: f64,
    pub ranges: Vec<BaseRange>,
    pub present: bool,
    pub states: Vec<SatelliteState>,
}

impl Table {
    /// Columns of these lengths, full of bytes that no sample has.
    pub fn lent(lengths: [usize; 7]) -> Self {
        Self {
            dc: vec![0xA5; lengths[0]],
            dv: vec![0xA5A5; lengths[1]],
            db: vec![0x5A5A_5A5A; lengths[2]],
            df: vec![0xA5A5_A5A5; lengths[3]],
            dn: vec![0x5A5A_5A5A; lengths[4]],
            m: 0,
            ts: vec![-7.25e200; lengths[5]],
            xs: vec![f64::from_bits(0x7FF8_0000_0000_1234); lengths[6]],
            n: 0,
        }
    }

    pub fn capacity(&self) -> usize {
        let lengths = [
            self.dc.len(),
            self.dv.len(),
            self.db.len(),
            self.df.len(),
            self.dn.len(),
            self.ts.len(),
            self.xs.len(),
        ];
        lengths.into_iter().min().unwrap().min(2048)
    }

    /// Number 2: more blocks or samples than there is room for.
    pub fn crowded(&self) -> bool {
        self.m > self.capacity() || self.n > self.capacity()
    }

    /// Every bit of the columns, and the counts.
    pub fn bits(&self) -> Bits {
        let raw = |v: &[f64]| v.iter().map(|x| x.to_bits()).collect();
        (
            (self.dc.clone(), self.dv.clone(), self.db.clone()),
            (self.df.clone(), self.dn.clone()),
            (raw(&self.ts), raw(&self.xs)),
            (self.m, self.n),
        )
    }

    /// The table with these series in front, a block for each, and past them as it was.
    pub fn with(&self, series: &BTreeMap<(u8, u16, u8), Vec<(f64, f64)>>, naming: Naming) -> Self {
        let mut t = self.clone();
        (t.m, t.n) = (0, 0);
        for ((c, v, b), samples) in series {
            t.block((*c, *v, naming.band(*b)), samples);
        }
        t
    }

    /// One block more, past the others.
    pub fn block(&mut self, (c, v, b): (u8, u16, u32), samples: &[(f64, f64)]) {
        if samples.is_empty() {
            return;
        }
        let j = self.m;
        (self.dc[j], self.dv[j], self.db[j]) = (c, v, b);
        (self.df[j], self.dn[j]) = (self.n, samples.len());
        self.m += 1;
        for (time, x) in samples {
            (self.ts[self.n], self.xs[self.n]) = (*time, *x);
            self.n += 1;
        }
    }

    /// The name of a block.
    pub fn name(&self, j: usize) -> (u8, u16, u32) {
        (self.dc[j], self.dv[j], self.db[j])
    }

    /// The block that holds the sample `i` of a sound table.
    pub fn holding(&self, i: usize) -> usize {
        (0..self.m)
            .find(|&j| self.df[j] <= i && i - self.df[j] < self.dn[j])
            .expect("each sample lies in a block")
    }

    /// Whether number 4 lets the table pass: fault by fault, as request (ix) lists them.
    pub fn sound(&self) -> bool {
        let floats = (0..self.n).all(|i| in_range(self.ts[i]) && in_range(self.xs[i]));
        let sorted = (1..self.m).all(|j| self.name(j - 1) <= self.name(j));
        let once = (1..self.m).all(|j| self.name(j - 1) != self.name(j));
        let filled = (0..self.m).all(|j| self.dn[j] > 0);
        let in_turn = (1..self.m).all(|j| self.df[j - 1] <= self.df[j]);
        let inside = (0..self.m).all(|j| self.df[j] as u128 + self.dn[j] as u128 <= self.n as u128);
        if !(floats && sorted && once && filled && in_turn && inside) {
            return false;
        }
        // No place lies in two blocks, and none in no block.
        let mut held = vec![0; self.n];
        for j in 0..self.m {
            for place in &mut held[self.df[j]..self.df[j] + self.dn[j]] {
                *place += 1;
            }
        }
        let ordered = (0..self.m).all(|j| {
            let times = &self.ts[self.df[j]..self.df[j] + self.dn[j]];
            times.windows(2).all(|t| t[0].total_cmp(&t[1]).is_le())
        });
        held.iter().all(|&h| h == 1) && ordered
    }

    pub fn query(&self, gap: f64, (c, v, b): (u8, u16, u32), t: f64) -> (u8, f64) {
        let mut metres = -1.5e300;
        // SAFETY: each pointer comes with its length, and the last is ours alone.
        let number = unsafe {
            zaqnuti_query(
                self.dc.as_ptr(),
                self.dc.len(),
                self.dv.as_ptr(),
                self.dv.len(),
                self.db.as_ptr(),
                self.db.len(),
                self.df.as_ptr(),
                self.df.len(),
                self.dn.as_ptr(),
                self.dn.len(),
                self.m,
                self.ts.as_ptr(),
                self.ts.len(),
                self.xs.as_ptr(),
                self.xs.len(),
                self.n,
                gap,
                c,
                v,
                b,
                t,
                &mut metres,
            )
        };
        (number, metres)
    }

    /// Many queries by one call, whose answers go to the columns of `out`.
    pub fn queries(&self, gap: f64, asked: &Asked, count: usize, out: &mut Out) -> u8 {
        // SAFETY: each pointer comes with its length, and the last two are ours alone.
        unsafe {
            zaqnuti_queries(
                self.dc.as_ptr(),
                self.dc.len(),
                self.dv.as_ptr(),
                self.dv.len(),
                self.db.as_ptr(),
                self.db.len(),
                self.df.as_ptr(),
                self.df.len(),
                self.dn.as_ptr(),
                self.dn.len(),
                self.m,
                self.ts.as_ptr(),
                self.ts.len(),
                self.xs.as_ptr(),
                self.xs.len(),
                self.n,
                gap,
                asked.c.as_ptr(),
                asked.c.len(),
                asked.v.as_ptr(),
                asked.v.len(),
                asked.b.as_ptr(),
                asked.b.len(),
                asked.t.as_ptr(),
                asked.t.len(),
                count,
                out.numbers.as_mut_ptr(),
                out.numbers.len(),
                out.metres.as_mut_ptr(),
                out.metres.len(),
            )
        }
    }
}

/// Signals and times as the entry point takes them.
pub struct Asked {
    pub c: Vec<u8>,
    pub v: Vec<u16>,
    pub b: Vec<u32>,
    pub t: Vec<f64>,
}

impl Asked {
    pub fn of(each: &[((u8, u16, u32), f64)]) -> Self {
        Self {
            c: each.iter().map(|e| e.0 .0).collect(),
            v: each.iter().map(|e| e.0 .1).collect(),
            b: each.iter().map(|e| e.0 .2).collect(),
            t: each.iter().map(|e| e.1).collect(),
        }
    }
}

/// Where the answers of many queries go.
#[derive(Clone)]
pub struct Out {
    pub numbers: Vec<u8>,
    pub metres: Vec<f64>,
}

impl Out {
    /// Room for so many, none of it written yet.
    pub fn room(places: usize) -> Self {
        Self {
            numbers: vec![77; places],
            metres: vec![-1.5e300; places],
        }
    }

    pub fn bits(&self) -> (&[u8], Vec<u64>) {
        (
            &self.numbers,
            self.metres.iter().map(|x| x.to_bits()).collect(),
        )
    }
}

/// An epoch as the entry point takes it.
pub struct Columns {
    time: f64,
    k: usize,
    rc: Vec<u8>,
    rv: Vec<u16>,
    rb: Vec<u32>,
    rp: Vec<f64>,
    present: bool,
    m: usize,
    sc: Vec<u8>,
    sv: Vec<u16>,
    sb: Vec<u32>,
    sf: Vec<f64>,
}

impl Columns {
    pub fn of(e: &Epoch, naming: Naming) -> Self {
        Self {
            time: e.time,
            k: e.ranges.len(),
            rc: e.ranges.iter().map(|r| r.constellation).collect(),
            rv: e.ranges.iter().map(|r| r.svid).collect(),
            rb: e.ranges.iter().map(|r| naming.band(r.band)).collect(),
            rp: e.ranges.iter().map(|r| r.pseudorange).collect(),
            present: e.present,
            m: e.states.len(),
            sc: e.states.iter().map(|s| s.constellation).collect(),
            sv: e.states.iter().map(|s| s.svid).collect(),
            sb: e.states.iter().map(|s| naming.band(s.band)).collect(),
            sf: e.states.iter().flat_map(floats).collect(),
        }
    }

    pub fn add(&self, t: &mut Table, base: &[f64; 3], rover: &[f64; 3], set: &Settings) -> u8 {
        // SAFETY: each pointer comes with its length or has that of its type, and those that are written are ours alone.
        unsafe {
            zaqnuti_add_epoch(
                t.dc.as_mut_ptr(),
                t.dc.len(),
                t.dv.as_mut_ptr(),
                t.dv.len(),
                t.db.as_mut_ptr(),
                t.db.len(),
                t.df.as_mut_ptr(),
                t.df.len(),
                t.dn.as_mut_ptr(),
                t.dn.len(),
                &mut t.m,
                t.ts.as_mut_ptr(),
                t.ts.len(),
                t.xs.as_mut_ptr(),
                t.xs.len(),
                &mut t.n,
                self.time,
                self.k,
                self.rc.as_ptr(),
                self.rc.len(),
                self.rv.as_ptr(),
                self.rv.len(),
                self.rb.as_ptr(),
                self.rb.len(),
                self.rp.as_ptr(),
                self.rp.len(),
                self.present,
                self.m,
                self.sc.as_ptr(),
                self.sc.len(),
                self.sv.as_ptr(),
                self.sv.len(),
                self.sb.as_ptr(),
                self.sb.len(),
                self.sf.as_ptr(),
                self.sf.len(),
                base,
                rover,
                set.max_gap,
                set.max_correction,
                &set.constellations,
            )
        }
    }
}

/// The first `n` bands of an old column in a new one.
pub fn widen(narrow: &[u8], n: usize, wide: &mut [u32]) -> u8 {
    // SAFETY: each pointer comes with its length, and the last is ours alone.
    unsafe {
        zaqnuti_widen_bands(
            narrow.as_ptr(),
            narrow.len(),
            n,
            wide.as_mut_ptr(),
            wide.len(),
        )
    }
}

/// Number 2 of widening, and the new column afterwards.
pub fn widened(narrow: &[u8], n: usize, wide: &[u32]) -> (u8, Vec<u32>) {
    let mut after = wide.to_vec();
    if n > 2048 || n > narrow.len() || n > wide.len() {
        return (2, after);
    }
    for (w, &b) in after.iter_mut().zip(&narrow[..n]) {
        *w = b.into();
    }
    (0, after)
}

pub fn in_range(x: f64) -> bool {
    x.is_finite() && x.abs() <= 1e9
}

/// A state's floats in the entry point's order.
pub fn floats(s: &SatelliteState) -> [f64; 8] {
    let (p, v) = (s.position, s.velocity);
    [p[0], p[1], p[2], v[0], v[1], v[2], s.clock, s.modelled]
}
