//! A drop from a table, whole or damaged.

use super::corrections::{naming, table, Columns};
use super::sys;
use crate::fuzz::lent::Lender;
use crate::fuzz::Bytes;

pub fn forget(b: &mut Bytes) {
    let naming = naming(b);
    let t = table(b, naming);
    let time = match b.byte() {
        0..=199 => f64::from(b.byte()),
        200..=219 => f64::from(b.u16()) / 256.0,
        _ => b.float(),
    };
    let number = t.forget_number(time);
    let after = if number == 0 {
        t.forgotten(time)
    } else {
        t.clone()
    };
    let mut lender = Lender::new();
    let cols = Columns::lend(&mut lender, &t);
    let n = lender.lend(&[t.n]);
    // SAFETY: each pointer leads to what its length or its type says.
    let ours = unsafe {
        sys::zaqnuti_forget(
            cols.dc.at(),
            cols.dc.len(),
            cols.dv.at(),
            cols.dv.len(),
            cols.db.at(),
            cols.db.len(),
            cols.df.at(),
            cols.df.len(),
            cols.dn.at(),
            cols.dn.len(),
            t.m,
            cols.ts.at(),
            cols.ts.len(),
            cols.xs.at(),
            cols.xs.len(),
            n.at(),
            time,
        )
    };
    assert_eq!(ours, number);
    cols.hold(&after);
    n.holds(&[after.n]);
}
