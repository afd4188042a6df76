//! The displacement, by its interval, between two times and with its quality.

use super::times::nanos;
use super::{column, count, floats, signal, sys};
use crate::estimate::{Between, City, Displacement};
use crate::fuzz::lent::{Lender, Lent};
use crate::fuzz::Bytes;
use crate::random::Random;
use crate::rated::Rated;
use crate::sky::{self, Input};
use drifters_gnss::tdcp::{self, Carrier, Delta};

fn carrier(b: &mut Bytes) -> Carrier {
    let (constellation, svid) = signal(b);
    Carrier {
        constellation,
        svid,
        band: if b.flag() { 1575 } else { b.u32() },
        state: if b.flag() { 1 } else { b.u32() as i32 },
        adr: b.float(),
        satellite: b.three(),
        elevation: b.float(),
        rate: b.float(),
    }
}

pub fn displacement_input(b: &mut Bytes) -> Displacement {
    let kind = b.byte();
    if kind % 4 == 0 {
        b.set_plain(kind & 4 == 0);
        let (m, n) = (b.below(67), b.below(67));
        let previous: Vec<Carrier> = (0..m).map(|_| carrier(b)).collect();
        // Most current carriers are a previous one, moved.
        let current = (0..n).map(|k| match previous.get(k) {
            Some(p) if b.byte() < 230 => Carrier {
                adr: p.adr + b.float(),
                ..*p
            },
            _ => carrier(b),
        });
        let current: Vec<Carrier> = current.collect();
        return Displacement {
            settings: tdcp::Settings {
                screen: b.float(),
                sigma_a: b.float(),
                sigma_b: b.float(),
                huber: b.float(),
                mask: b.float(),
                iterations: b.count(50),
                agreement: f64::NAN,
            },
            dt: b.float(),
            receiver: b.three(),
            previous,
            current,
        };
    }
    let mut random = Random::new(u64::from(b.u16()), "fuzz");
    let mut input = match kind % 4 {
        1 => sky::input(&mut random),
        _ => {
            let n = 5 + b.below(60);
            Displacement::clean(&mut random, n)
        }
    };
    for _ in 0..24 {
        if b.is_empty() {
            break;
        }
        b.set_plain(kind & 8 == 0);
        let set = &mut input.settings;
        let epoch = if b.flag() {
            &mut input.previous
        } else {
            &mut input.current
        };
        let n = epoch.len();
        match b.below(14) {
            0 => set.screen = b.float(),
            1 => set.sigma_a = b.float(),
            2 => set.sigma_b = b.float(),
            3 => set.huber = b.float(),
            4 => set.mask = b.float(),
            5 => set.iterations = b.count(50),
            6 => input.dt = b.float(),
            7 => input.receiver[b.below(3)] = b.float(),
            _ if n == 0 => {}
            8 => epoch[b.below(n)].constellation = b.byte(),
            9 => epoch[b.below(n)].state = b.u32() as i32,
            10 => epoch[b.below(n)].satellite[b.below(3)] = b.float(),
            11 => epoch[b.below(n)].elevation = b.float(),
            12 => epoch[b.below(n)].rate = b.float(),
            _ => epoch[b.below(n)].adr = b.float(),
        }
    }
    input
}

/// An epoch of carriers, lent.
pub struct Epoch {
    pub constellation: Lent<u8>,
    pub svid: Lent<u16>,
    pub band: Lent<u32>,
    pub state: Lent<i32>,
    pub floats: Lent<f64>,
    pub count: usize,
    pub fits: bool,
}

impl Epoch {
    pub fn lend(b: &mut Bytes, lender: &mut Lender, records: &[Carrier]) -> Self {
        let constellation = column(b, records, |c| c.constellation);
        let svid = column(b, records, |c| c.svid);
        let band = column(b, records, |c| c.band);
        let state = column(b, records, |c| c.state);
        let fs = floats(b, records, |c| {
            let [x, y, z] = c.satellite;
            [c.adr, x, y, z, c.elevation, c.rate]
        });
        let n = count(b, records.len());
        let shortest = [
            constellation.len(),
            svid.len(),
            band.len(),
            state.len(),
            fs.len() / 6,
        ];
        Self {
            fits: n <= 64 && shortest.iter().all(|&k| n <= k),
            constellation: lender.lend(&constellation),
            svid: lender.lend(&svid),
            band: lender.lend(&band),
            state: lender.lend(&state),
            floats: lender.lend(&fs),
            count: n,
        }
    }

    pub fn kept(&self) {
        self.constellation.kept();
        self.svid.kept();
        self.band.kept();
        self.state.kept();
        self.floats.kept();
    }
}

/// Calls an entry point of the displacement on two epochs, with the interval or the times where it takes
/// them, and holds the library to what is expected of the records that are counted: the displacement, and
/// the quality where that is lent.
macro_rules! compared {
    ($b:ident, $input:ident, $entry:ident, $($apart:expr),+; $($quality:ident)?; $answer:expr) => {{
        let mut lender = Lender::new();
        let p = Epoch::lend($b, &mut lender, &$input.previous);
        let c = Epoch::lend($b, &mut lender, &$input.current);
        let (receiver, set) = ($input.receiver, $input.settings);
        let expected = if p.fits && c.fits {
            if p.count > $input.previous.len() || c.count > $input.current.len() {
                return;
            }
            $input.previous.truncate(p.count);
            $input.current.truncate(c.count);
            $answer
        } else {
            Err(2)
        };
        let receiver = lender.lend(&receiver);
        let settings = lender.lend(&[set.screen, set.sigma_a, set.sigma_b, set.huber, set.mask]);
        let delta = lender.lend(&[f64::from_bits($b.u64()), f64::NAN, -0.0]);
        $(let $quality = lender.lend(&[-0.0, f64::from_bits($b.u64())]);)?
        let counts = lender.lend(&[$b.u64() as usize, 77]);
        // SAFETY: each pointer leads to what its length or its type says.
        let number = unsafe {
            sys::$entry(
                p.constellation.at(),
                p.constellation.len(),
                p.svid.at(),
                p.svid.len(),
                p.band.at(),
                p.band.len(),
                p.state.at(),
                p.state.len(),
                p.floats.at(),
                p.floats.len(),
                p.count,
                c.constellation.at(),
                c.constellation.len(),
                c.svid.at(),
                c.svid.len(),
                c.band.at(),
                c.band.len(),
                c.state.at(),
                c.state.len(),
                c.floats.at(),
                c.floats.len(),
                c.count,
                $($apart),+,
                receiver.at().cast(),
                settings.at().cast(),
                set.iterations,
                delta.at().cast(),
                $($quality.at().cast(),)?
                counts.at().cast(),
            )
        };
        p.kept();
        c.kept();
        receiver.kept();
        settings.kept();
        match expected {
            Ok((d, _figures)) => {
                assert_eq!(number, 0);
                delta.holds(&[d.delta.x, d.delta.y, d.delta.z]);
                $($quality.holds(&_figures);)?
                counts.holds(&[d.used, d.screened]);
            }
            Err(why) => {
                assert_eq!(number, why);
                delta.kept();
                $($quality.kept();)?
                counts.kept();
            }
        }
    }};
}

/// An answer without quality.
fn plain(answer: Result<Delta, u8>) -> Result<Rated, u8> {
    answer.map(|d| (d, [0.0; 2]))
}

pub fn displacement(b: &mut Bytes) {
    let mut input = displacement_input(b);
    compared!(b, input, zaqnuti_displacement, input.dt;; plain(input.answer()));
}

pub fn city(b: &mut Bytes) {
    let mut input = displacement_input(b);
    let band = match b.byte() {
        0..=199 => 1575,
        _ => b.u64() as u32,
    };
    let dt = input.dt;
    compared!(b, input, zaqnuti_city_displacement, dt, band;; {
        plain(City { displacement: input, band }.answer())
    });
}

pub fn rated(b: &mut Bytes) {
    let mut input = displacement_input(b);
    compared!(b, input, zaqnuti_displacement_rated, input.dt; quality; input.rated());
}

pub fn city_rated(b: &mut Bytes) {
    let mut input = displacement_input(b);
    let band = match b.byte() {
        0..=199 => 1575,
        _ => b.u64() as u32,
    };
    let dt = input.dt;
    compared!(b, input, zaqnuti_city_displacement_rated, dt, band; quality; {
        City { displacement: input, band }.rated()
    });
}

pub fn between(b: &mut Bytes) {
    let mut input = displacement_input(b);
    let before = nanos(b);
    let now = match b.byte() {
        0..=99 => nanos(b),
        _ => before.wrapping_add((input.dt * 1e9) as u64),
    };
    compared!(b, input, zaqnuti_displacement_between, before, now;; {
        plain(Between::new(input, [before, now]).answer())
    });
}
