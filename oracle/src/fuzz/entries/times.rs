//! Times: construction and both differences.

use super::sys;
use crate::fuzz::lent::Lender;
use crate::fuzz::Bytes;
use crate::rules::{is_dated, is_time, LAST};
use crate::services::time::{EDGES, WEEK};
use drifters_core::time::GpsTime;

/// A time: one at which something changes, one that 13 lets pass, the end of a week, or any.
pub fn nanos(b: &mut Bytes) -> u64 {
    match b.byte() {
        k @ 0..=79 => EDGES[usize::from(k) % EDGES.len()],
        80..=159 => b.u64() % (LAST + 1),
        k @ 160..=219 => {
            (WEEK * u64::from(b.u16() % 15_003)).wrapping_add_signed(i64::from(k) - 190)
        }
        _ => b.u64(),
    }
}

fn a_time(b: &mut Bytes) -> u64 {
    b.plain_above(127);
    let week = match b.byte() {
        0..=199 => u32::from(b.u16() % 15_003),
        _ => b.u32(),
    };
    let tow = match b.byte() {
        0..=99 => b.float(),
        // Next to a whole or half nanosecond of the week.
        k => {
            let half = (b.u64() % (2 * WEEK + 3)) as f64 * 0.5e-9;
            f64::from_bits(half.to_bits().wrapping_add_signed(i64::from(k % 5) - 2))
        }
    };
    let mut lender = Lender::new();
    let out = lender.lend(&[b.u64()]);
    // SAFETY: the pointer leads to a number.
    let number = unsafe { sys::zaqnuti_time(week, tow, out.at()) };
    if is_time(week, tow) {
        assert_eq!(number, 0);
        out.holds(&[GpsTime::new(week, tow).nanos()]);
    } else {
        assert_eq!(number, 13);
        out.kept();
    }
    out.now()[0]
}

pub fn times(b: &mut Bytes) {
    let first = a_time(b);
    let later = if b.flag() { first } else { nanos(b) };
    let earlier = if b.flag() { a_time(b) } else { nanos(b) };
    let mut lender = Lender::new();
    let since = lender.lend(&[b.u64() as i64]);
    let seconds = lender.lend(&[f64::from_bits(b.u64())]);
    // SAFETY: each pointer leads to a number.
    let numbers = unsafe {
        [
            sys::zaqnuti_nanos_since(later, earlier, since.at()),
            sys::zaqnuti_seconds_since(later, earlier, seconds.at()),
        ]
    };
    if is_dated(later) && is_dated(earlier) {
        let [a, e] = [later, earlier].map(GpsTime::from_nanos);
        assert_eq!(numbers, [0; 2]);
        since.holds(&[a.nanos_since(e)]);
        seconds.holds(&[a.seconds_since(e)]);
    } else {
        assert_eq!(numbers, [13; 2]);
        since.kept();
        seconds.kept();
    }
}
