//! Carrier records as bytes: reading, writing, and the displacement between two slices of them.

use super::displacement::displacement_input;
use super::{sys, turn_length};
use crate::fuzz::lent::{Lender, Lent};
use crate::fuzz::Bytes;
use crate::services::wire::{bytes_of, records_of, Record, RECORD};
use crate::services::wire_tdcp::{line_s, rounds, slice};

/// Columns for about n records, lent.
struct Columns {
    constellation: Lent<u8>,
    svid: Lent<u16>,
    band: Lent<u32>,
    state: Lent<i32>,
    floats: Lent<u64>,
}

impl Columns {
    /// Each of some numbers, sometimes shorter or longer than n records need.
    fn lend(b: &mut Bytes, lender: &mut Lender, n: usize) -> Self {
        fn column<T: Copy + Default>(b: &mut Bytes, n: usize, of: impl Fn(u64) -> T) -> Vec<T> {
            let start = b.u64();
            let mut out: Vec<T> = (0..n as u64)
                .map(|k| of(start.wrapping_mul(k + 1)))
                .collect();
            turn_length(b, &mut out);
            out
        }
        Self {
            constellation: lender.lend(&column(b, n, |x| x as u8)),
            svid: lender.lend(&column(b, n, |x| x as u16)),
            band: lender.lend(&column(b, n, |x| x as u32)),
            state: lender.lend(&column(b, n, |x| x as i32)),
            floats: lender.lend(&column(b, 6 * n, |x| x)),
        }
    }

    fn fits(&self, n: usize) -> bool {
        let four = [
            self.constellation.len(),
            self.svid.len(),
            self.band.len(),
            self.state.len(),
        ];
        n <= 64 && four.iter().all(|&k| n <= k) && n <= self.floats.len() / 6
    }

    fn kept(&self) {
        self.constellation.kept();
        self.svid.kept();
        self.band.kept();
        self.state.kept();
        self.floats.kept();
    }
}

pub fn read_records(b: &mut Bytes) {
    let length = match b.byte() {
        k @ 0..=199 => RECORD * usize::from(k % 67),
        _ => b.below(RECORD * 67),
    };
    let bytes: Vec<u8> = (0..length).map(|_| b.byte()).collect();
    let n = length / RECORD;
    let mut lender = Lender::new();
    let given = lender.lend(&bytes);
    let c = Columns::lend(b, &mut lender, n);
    let count = lender.lend(&[b.u64() as usize]);
    // SAFETY: each pointer leads to what its length says.
    let number = unsafe {
        sys::zaqnuti_read_records(
            given.at(),
            given.len(),
            c.constellation.at(),
            c.constellation.len(),
            c.svid.at(),
            c.svid.len(),
            c.band.at(),
            c.band.len(),
            c.state.at(),
            c.state.len(),
            c.floats.at(),
            c.floats.len(),
            count.at(),
        )
    };
    given.kept();
    if length % RECORD != 0 || !c.fits(n) {
        assert_eq!(number, if length % RECORD != 0 { 21 } else { 2 });
        c.kept();
        count.kept();
        return;
    }
    assert_eq!(number, 0);
    count.holds(&[n]);
    let records = records_of(&bytes);
    /// What a column has to hold: the records' numbers, and behind them what was there.
    fn over<T: Copy>(lent: &Lent<T>, mut first: Vec<T>) -> Vec<T> {
        let behind = first.len();
        first.extend_from_slice(&lent.given()[behind..]);
        first
    }
    let of = |r: &Record| r.carrier();
    let constellation = records.iter().map(|r| of(r).constellation).collect();
    c.constellation
        .holds(&over(&c.constellation, constellation));
    c.svid
        .holds(&over(&c.svid, records.iter().map(|r| of(r).svid).collect()));
    c.band
        .holds(&over(&c.band, records.iter().map(|r| of(r).band).collect()));
    c.state.holds(&over(
        &c.state,
        records.iter().map(|r| of(r).state).collect(),
    ));
    let floats = records.iter().flat_map(|r| r.floats).collect();
    c.floats.holds(&over(&c.floats, floats));
}

pub fn write_records(b: &mut Bytes) {
    let n = b.below(67);
    let mut lender = Lender::new();
    let c = Columns::lend(b, &mut lender, n);
    let count = super::count(b, n);
    let mut room = vec![b.byte(); RECORD * n];
    turn_length(b, &mut room);
    let out = lender.lend(&room);
    // SAFETY: each pointer leads to what its length says.
    let number = unsafe {
        sys::zaqnuti_write_records(
            c.constellation.at(),
            c.constellation.len(),
            c.svid.at(),
            c.svid.len(),
            c.band.at(),
            c.band.len(),
            c.state.at(),
            c.state.len(),
            c.floats.at(),
            c.floats.len(),
            count,
            out.at(),
            out.len(),
        )
    };
    c.kept();
    if !c.fits(count) || room.len() / RECORD < count {
        assert_eq!(number, 2);
        out.kept();
        return;
    }
    assert_eq!(number, 0);
    let record = |i: usize| Record {
        constellation: c.constellation.now()[i],
        svid: c.svid.now()[i],
        band: c.band.now()[i],
        state: c.state.now()[i],
        floats: c.floats.now()[6 * i..6 * i + 6].try_into().unwrap(),
    };
    let mut expected = bytes_of(&(0..count).map(record).collect::<Vec<_>>());
    expected.extend_from_slice(&room[expected.len()..]);
    out.holds(&expected);
}

pub fn displacement_records(b: &mut Bytes) {
    let input = displacement_input(b);
    let [mut p, mut c] = [&input.previous, &input.current].map(|e| slice(e));
    turn_length(b, &mut p);
    turn_length(b, &mut c);
    let mut room = vec![b.byte(); 40];
    turn_length(b, &mut room);
    let mut lender = Lender::new();
    let (previous, current) = (lender.lend(&p), lender.lend(&c));
    let result = lender.lend(&room);
    let [dt, x, y, z, screen, sigma_a, sigma_b, huber, mask] = line_s(&input);
    // SAFETY: each pointer leads to what its length says.
    let number = unsafe {
        sys::zaqnuti_displacement_records(
            previous.at(),
            previous.len(),
            current.at(),
            current.len(),
            dt,
            x,
            y,
            z,
            screen,
            sigma_a,
            sigma_b,
            huber,
            mask,
            rounds(&input),
            result.at(),
            result.len(),
        )
    };
    previous.kept();
    current.kept();
    let broken = p.len() % RECORD != 0 || c.len() % RECORD != 0;
    let expected = if broken {
        Err(21)
    } else if p.len().max(c.len()) / RECORD > 64 || room.len() < 40 {
        Err(2)
    } else {
        let epoch = |s: &[u8]| records_of(s).iter().map(Record::carrier).collect();
        let (previous, current) = (epoch(&p), epoch(&c));
        crate::estimate::Displacement {
            previous,
            current,
            ..input
        }
        .answer()
    };
    match expected {
        Ok(d) => {
            assert_eq!(number, 0);
            let counts = [d.used, d.screened].map(|n| n as u64);
            let delta = [d.delta.x, d.delta.y, d.delta.z].map(f64::to_bits);
            let mut bytes: Vec<u8> = counts
                .iter()
                .chain(&delta)
                .flat_map(|w| w.to_le_bytes())
                .collect();
            bytes.extend_from_slice(&room[40..]);
            result.holds(&bytes);
        }
        Err(why) => {
            assert_eq!(number, why);
            result.kept();
        }
    }
}
