//! A mileage: its start, some epochs more, and after each of them report, distance and fuel.

use super::sys;
use crate::fuzz::lent::Lender;
use crate::fuzz::Bytes;
use crate::services::mileage::{added, distance, fuelled, reported, started, Epoch, Words};

/// Made-up words: of small numbers, at the limits of their epochs, or any.
fn made_up(b: &mut Bytes) -> Words {
    match b.byte() {
        0..=99 => {
            let epochs = u64::from(b.byte());
            let half = epochs / 2;
            [
                0.2f64.to_bits(),
                epochs,
                half,
                half,
                u64::from(b.u16()) * epochs,
                u64::from(b.byte()),
                u64::from(b.u16()) * epochs,
                u64::from(b.byte()) * epochs,
                u64::from(b.byte() % 3),
                u64::from(b.u16()),
            ]
        }
        100..=199 => {
            let epochs = 65_535u64.wrapping_add_signed(i64::from(b.byte() % 5) - 3);
            let near = |b: &mut Bytes, n: u64| n + u64::from(b.byte() % 3) - 1;
            [
                1e9f64.to_bits() + u64::from(b.byte() % 2),
                epochs,
                near(b, epochs - 1000),
                1000,
                near(b, 1_000_000 * epochs - 9),
                u64::from(b.byte()),
                6,
                near(b, 65_535 * epochs),
                u64::from(b.byte() % 3),
                near(b, 3),
            ]
        }
        _ => std::array::from_fn(|_| b.u64()),
    }
}

pub fn mileage(b: &mut Bytes) {
    let mut now = made_up(b);
    {
        let mut lender = Lender::new();
        let limit = b.float();
        let lent = lender.lend(&now);
        // SAFETY: the pointer leads to ten numbers.
        let number = unsafe { sys::zaqnuti_mileage_start(limit, lent.at().cast()) };
        match started(limit) {
            Ok(words) => {
                assert_eq!(number, 0);
                lent.holds(&words);
                if b.flag() {
                    now = words;
                }
            }
            Err(why) => {
                assert_eq!(number, why);
                lent.kept();
            }
        }
    }
    for _ in 0..1 + b.byte() % 8 {
        b.plain_above(99);
        let epoch = Epoch {
            refused_by: if b.flag() { 0 } else { b.byte() },
            delta: b.three(),
            quality: [b.float(), b.float()],
            pulses: if b.flag() { 0 } else { b.u16() },
        };
        let millilitres = b.u32();
        let mut lender = Lender::new();
        let lent = lender.lend(&now);
        let by = lender.lend(&epoch.delta);
        let quality = lender.lend(&epoch.quality);
        let report = lender.lend(&[b.u64(), 1, 2, 3, 4, 5, 6]);
        let far = lender.lend(&[b.u64()]);
        let fuel = lender.lend(&[b.u64()]);
        // SAFETY: each pointer leads to as many numbers as its type says.
        let numbers = unsafe {
            [
                sys::zaqnuti_mileage_add(
                    lent.at().cast(),
                    epoch.refused_by,
                    by.at().cast(),
                    quality.at().cast(),
                    epoch.pulses,
                ),
                sys::zaqnuti_mileage_report(lent.at().cast(), report.at().cast()),
                sys::zaqnuti_mileage_distance(lent.at().cast(), far.at()),
                sys::zaqnuti_mileage_fuel(lent.at().cast(), millilitres, fuel.at()),
            ]
        };
        by.kept();
        quality.kept();
        let after = added(&now, &epoch);
        now = after.unwrap_or(now);
        lent.holds(&now);
        let (totals, d, ml) = (reported(&now), distance(&now), fuelled(&now, millilitres));
        assert_eq!(
            numbers,
            [after.err(), totals.err(), d.err(), ml.err()].map(|n| n.unwrap_or(0))
        );
        match totals {
            Ok(totals) => report.holds(&totals),
            Err(_) => report.kept(),
        }
        for (lent, answer) in [(far, d), (fuel, ml)] {
            match answer {
                Ok(n) => lent.holds(&[n]),
                Err(_) => lent.kept(),
            }
        }
    }
}
