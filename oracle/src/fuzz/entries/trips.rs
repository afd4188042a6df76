//! A trip: its start, some epochs more, and after each of them report and fuel.

use super::sys;
use crate::fuzz::lent::Lender;
use crate::fuzz::Bytes;
use crate::services::trip::{added, fuelled, reported, started, Words};

/// A made-up trip: of small numbers, at the limits of its epochs, or of any.
pub fn made_up(b: &mut Bytes) -> Words {
    match b.byte() {
        0..=99 => {
            let epochs = u64::from(b.byte());
            [
                u64::from(b.u16()),
                epochs,
                u64::from(b.u16()) * epochs,
                u64::from(b.byte()) * epochs,
                u64::from(b.u32()),
                u64::from(b.byte()),
            ]
        }
        100..=199 => {
            let epochs = 65_535u64.wrapping_add_signed(i64::from(b.byte() % 5) - 3);
            let (mm, pulses) = (u64::from(b.byte() % 3), u64::from(b.byte() % 3));
            [
                u64::from(b.u16()).wrapping_add(u64::from(b.byte() % 2)),
                epochs,
                1_000_000 * epochs + mm - 1,
                65_535 * epochs + pulses - 1,
                b.u64(),
                u64::from(u32::MAX) + u64::from(b.byte() % 2),
            ]
        }
        _ => std::array::from_fn(|_| b.u64()),
    }
}

pub fn trip(b: &mut Bytes) {
    let mut now = made_up(b);
    {
        let mut lender = Lender::new();
        let rate = b.u16() & (0xFFFF >> (b.byte() % 17).min(15));
        let lent = lender.lend(&now);
        // SAFETY: the pointer leads to six numbers.
        let number = unsafe { sys::zaqnuti_trip_start(rate, lent.at().cast()) };
        match started(rate) {
            Ok(words) => {
                assert_eq!(number, 0);
                lent.holds(&words);
                if b.flag() {
                    now = words;
                }
            }
            Err(why) => {
                assert_eq!(number, why);
                lent.kept();
            }
        }
    }
    for _ in 0..1 + b.byte() % 8 {
        b.plain_above(99);
        let (delta, pulses, millilitres) = (b.three(), b.u16(), b.u32());
        let mut lender = Lender::new();
        let lent = lender.lend(&now);
        let by = lender.lend(&delta);
        let report = lender.lend(&[b.u64(), 1, 2, 3]);
        let fuel = lender.lend(&[b.u64()]);
        // SAFETY: each pointer leads to as many numbers as its type says.
        let numbers = unsafe {
            [
                sys::zaqnuti_trip_add(lent.at().cast(), by.at().cast(), pulses),
                sys::zaqnuti_trip_report(lent.at().cast(), report.at().cast()),
                sys::zaqnuti_trip_fuel(lent.at().cast(), millilitres, fuel.at()),
            ]
        };
        by.kept();
        let after = added(&now, &delta, pulses);
        now = after.unwrap_or(now);
        lent.holds(&now);
        let (totals, ml) = (reported(&now), fuelled(&now, millilitres));
        assert_eq!(
            numbers,
            [after.err(), totals.err(), ml.err()].map(|n| n.unwrap_or(0))
        );
        match totals {
            Ok(totals) => report.holds(&totals),
            Err(_) => report.kept(),
        }
        match ml {
            Ok(ml) => fuel.holds(&[ml]),
            Err(_) => fuel.kept(),
        }
    }
}
