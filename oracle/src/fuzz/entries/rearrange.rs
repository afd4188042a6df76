//! The directory of a stored table, and the signals of a directory, whole or damaged.

use super::corrections::{naming, rows, table, Columns};
use super::{column, count, sys};
use crate::fuzz::lent::{Lender, Lent};
use crate::fuzz::Bytes;
use crate::services::corrections::lent::Table;
use crate::services::rearrange::{filed, listed, Signals};

/// The three columns of signals, lent.
struct Lists {
    cs: Lent<u8>,
    vs: Lent<u16>,
    bs: Lent<u32>,
}

impl Lists {
    fn lend(lender: &mut Lender, s: &Signals) -> Self {
        Self {
            cs: lender.lend(&s.cs),
            vs: lender.lend(&s.vs),
            bs: lender.lend(&s.bs),
        }
    }

    /// They must hold these signals, to the last bit.
    fn hold(&self, s: &Signals) {
        self.cs.holds(&s.cs);
        self.vs.holds(&s.vs);
        self.bs.holds(&s.bs);
    }
}

pub fn directory_of(b: &mut Bytes) {
    let naming = naming(b);
    let rows = rows(b, naming);
    let s = Signals {
        cs: column(b, &rows, |r| r.0),
        vs: column(b, &rows, |r| r.1),
        bs: column(b, &rows, |r| r.2),
    };
    let mut t = Table::lent(std::array::from_fn(|_| rows.len() + b.below(3)));
    t.ts = column(b, &rows, |r| r.3);
    t.xs = column(b, &rows, |r| r.4);
    t.m = b.u64() as usize;
    t.n = count(b, rows.len());
    match b.byte() {
        255 => drop(t.dc.pop()),
        254 => drop(t.dv.pop()),
        253 => drop(t.db.pop()),
        252 => drop(t.df.pop()),
        251 => drop(t.dn.pop()),
        _ => {}
    }
    let (number, after) = match filed(&s, &t) {
        Ok(after) => (0, after),
        Err(number) => (number, t.clone()),
    };
    let mut lender = Lender::new();
    let lists = Lists::lend(&mut lender, &s);
    let cols = Columns::lend(&mut lender, &t);
    let m = lender.lend(&[t.m]);
    // SAFETY: each pointer leads to what its length or its type says.
    let ours = unsafe {
        sys::zaqnuti_directory_of(
            lists.cs.at(),
            lists.cs.len(),
            lists.vs.at(),
            lists.vs.len(),
            lists.bs.at(),
            lists.bs.len(),
            cols.ts.at(),
            cols.ts.len(),
            cols.xs.at(),
            cols.xs.len(),
            t.n,
            cols.dc.at(),
            cols.dc.len(),
            cols.dv.at(),
            cols.dv.len(),
            cols.db.at(),
            cols.db.len(),
            cols.df.at(),
            cols.df.len(),
            cols.dn.at(),
            cols.dn.len(),
            m.at(),
        )
    };
    assert_eq!(ours, number);
    lists.hold(&s);
    cols.hold(&after);
    m.holds(&[after.m]);
}

pub fn signals_of(b: &mut Bytes) {
    let naming = naming(b);
    let t = table(b, naming);
    let places = t.capacity().min(t.n);
    let into = Signals::lent(std::array::from_fn(|_| places + b.below(3)));
    let (number, after) = match listed(&t, &into) {
        Ok(after) => (0, after),
        Err(number) => (number, into.clone()),
    };
    let mut lender = Lender::new();
    let cols = Columns::lend(&mut lender, &t);
    let lists = Lists::lend(&mut lender, &into);
    // SAFETY: each pointer leads to what its length or its type says.
    let ours = unsafe {
        sys::zaqnuti_signals_of(
            cols.dc.at(),
            cols.dc.len(),
            cols.dv.at(),
            cols.dv.len(),
            cols.db.at(),
            cols.db.len(),
            cols.df.at(),
            cols.df.len(),
            cols.dn.at(),
            cols.dn.len(),
            t.m,
            cols.ts.at(),
            cols.ts.len(),
            cols.xs.at(),
            cols.xs.len(),
            t.n,
            lists.cs.at(),
            lists.cs.len(),
            lists.vs.at(),
            lists.vs.len(),
            lists.bs.at(),
            lists.bs.len(),
        )
    };
    assert_eq!(ours, number);
    cols.hold(&t);
    lists.hold(&after);
}
