//! The pieces, each a call of its own.

use super::{bits, count, patterns, sys, turn_length};
use crate::fuzz::lent::Lender;
use crate::fuzz::Bytes;
use crate::random::pattern;
use crate::rules::on_receiver;
use crate::services::{factor, round, solve};
use drifters_core::frames::Ecef;
use drifters_gnss::robust::{centre_scale, elevation_sigma, Clocks};
use drifters_gnss::tdcp;
use standins::{travel_cosine, travel_sine, StandIn};

pub fn a_round(b: &mut Bytes) {
    b.plain_above(80);
    let n = b.below(67);
    let mut rows = crate::ffi::Rows::default();
    let clocks = 1 + b.below(6);
    for k in 0..n {
        rows.units.extend(b.three());
        rows.clocks.push(match b.byte() {
            0..=249 => 3 + k % clocks,
            250..=253 => b.below(11),
            _ => b.u64() as usize,
        });
        rows.residuals.push(b.float().to_bits());
        rows.sigmas.push(if b.flag() { 1.0 } else { b.float() });
    }
    turn_length(b, &mut rows.units);
    turn_length(b, &mut rows.clocks);
    turn_length(b, &mut rows.residuals);
    turn_length(b, &mut rows.sigmas);
    rows.count = count(b, n);
    let input = round::Input {
        unknowns: if b.byte() < 200 {
            3 + clocks
        } else {
            b.count(9)
        },
        huber: b.float(),
        rows,
    };
    let expected = round::reference(&input);
    let rows = &input.rows;
    let mut lender = Lender::new();
    let (units, clocks) = (lender.lend(&rows.units), lender.lend(&rows.clocks));
    let (residuals, sigmas) = (lender.lend(&rows.residuals), lender.lend(&rows.sigmas));
    let dx = lender.lend(&[f64::from_bits(b.u64()); 9]);
    // SAFETY: each pointer leads to what its length or its type says.
    let number = unsafe {
        sys::zaqnuti_round(
            units.at(),
            units.len(),
            clocks.at().cast(),
            clocks.len(),
            residuals.at(),
            residuals.len(),
            sigmas.at(),
            sigmas.len(),
            rows.count,
            input.unknowns,
            input.huber,
            dx.at().cast(),
        )
    };
    units.kept();
    clocks.kept();
    residuals.kept();
    sigmas.kept();
    match expected {
        Ok(step) => {
            assert_eq!(number, 0);
            assert_eq!(patterns(dx.now()), patterns(&step));
        }
        Err(why) => {
            assert_eq!(number, why);
            dx.kept();
        }
    }
}

pub fn centre(b: &mut Bytes) {
    let n = b.below(67);
    let residuals: Vec<u64> = (0..n).map(|_| b.pattern()).collect();
    let mut lender = Lender::new();
    let (lent, out) = (lender.lend(&residuals), lender.lend(&[1.0, -0.0]));
    // SAFETY: each pointer leads to what its length or its type says.
    let number = unsafe { sys::zaqnuti_centre(lent.at(), lent.len(), out.at().cast()) };
    lent.kept();
    if n > 64 {
        assert_eq!(number, 2);
        return out.kept();
    }
    let floats: Vec<f64> = residuals.iter().map(|&r| f64::from_bits(r)).collect();
    let (middle, scale) = centre_scale(&floats);
    assert_eq!(number, 0);
    assert_eq!(patterns(out.now()), patterns(&[middle, scale]));
}

pub fn geometry(b: &mut Bytes) {
    b.plain_above(127);
    let (satellite, at) = (b.three(), b.three());
    let mut lender = Lender::new();
    let (s, r, out) = (
        lender.lend(&satellite),
        lender.lend(&at),
        lender.lend(&[0.5; 4]),
    );
    // SAFETY: each pointer leads to as many floats as its type says.
    let number = unsafe { sys::zaqnuti_geometry(s.at().cast(), r.at().cast(), out.at().cast()) };
    s.kept();
    r.kept();
    let (u, range) = tdcp::geometry(satellite, Ecef::new(at[0], at[1], at[2]));
    if on_receiver(range) {
        assert_eq!(number, 15);
        return out.kept();
    }
    assert_eq!(number, 0);
    assert_eq!(patterns(out.now()), patterns(&[u[0], u[1], u[2], range]));
}

/// A matrix: any floats, or a triangle times its transpose.
fn square(b: &mut Bytes) -> [[f64; 9]; 9] {
    let kind = b.byte();
    b.set_plain(kind & 1 == 0);
    let any: [[f64; 9]; 9] = std::array::from_fn(|_| std::array::from_fn(|_| b.float()));
    if kind & 6 != 0 {
        return any;
    }
    std::array::from_fn(|i| {
        std::array::from_fn(|j| (0..=i.min(j)).map(|k| any[i][k] * any[j][k]).sum())
    })
}

pub fn a_factor(b: &mut Bytes) {
    let a = square(b);
    let mut lender = Lender::new();
    let lent = [[f64::from_bits(b.u64()); 9]; 9];
    let (from, l) = (
        lender.lend(a.as_flattened()),
        lender.lend(lent.as_flattened()),
    );
    // SAFETY: each pointer leads to 81 floats.
    let number = unsafe { sys::zaqnuti_factor(from.at().cast(), l.at().cast()) };
    from.kept();
    match factor::reference(&a) {
        Some(theirs) => {
            assert_eq!(number, 0);
            assert_eq!(patterns(l.now()), patterns(theirs.as_flattened()));
        }
        None => {
            assert_eq!(number, 10);
            l.kept();
        }
    }
}

pub fn a_solve(b: &mut Bytes) {
    let l = square(b);
    let right: [f64; 9] = std::array::from_fn(|_| b.float());
    let mut lender = Lender::new();
    let (from, side) = (lender.lend(l.as_flattened()), lender.lend(&right));
    let x = lender.lend(&[0.5; 9]);
    // SAFETY: each pointer leads to as many floats as its type says.
    unsafe { sys::zaqnuti_solve(from.at().cast(), side.at().cast(), x.at().cast()) };
    from.kept();
    side.kept();
    assert_eq!(patterns(x.now()), patterns(&solve::reference(&l, &right)));
}

pub fn clocks(b: &mut Bytes) {
    let number = |b: &mut Bytes| match b.byte() {
        0..=99 => usize::MAX,
        k @ 100..=199 => usize::from(k % 16),
        _ => b.u64() as usize,
    };
    let slot: [usize; 8] = std::array::from_fn(|_| number(b));
    let k = number(b);
    let mut lender = Lender::new();
    let (s, n) = (lender.lend(&slot), lender.lend(&[k]));
    // SAFETY: each pointer leads to what its type says.
    unsafe {
        if b.flag() {
            sys::zaqnuti_clocks_new(s.at().cast(), n.at());
            s.holds(&[usize::MAX; 8]);
            n.holds(&[0]);
        }
        while !b.is_empty() {
            let c = b.byte();
            let mut before = [0; 8];
            before.copy_from_slice(s.now());
            let count = n.now()[0];
            let state = Clocks {
                slot: before,
                count,
            };
            let after = if count > 7 {
                state
            } else {
                state.assign_more(std::iter::once(c))
            };
            sys::zaqnuti_clocks_given(s.at().cast(), n.at(), c);
            s.holds(&after.slot);
            n.holds(&[after.count]);
            assert_eq!(sys::zaqnuti_clocks_slot(s.at().cast(), c), after.slot(c));
            let unknowns = sys::zaqnuti_clocks_unknowns(s.at().cast(), after.count);
            assert_eq!(unknowns, after.count.wrapping_add(3));
        }
    }
}

pub fn numbers(b: &mut Bytes) {
    let (p, q) = (b.pattern(), b.pattern());
    let (x, y, z) = (f64::from_bits(p), f64::from_bits(q), b.float());
    // SAFETY: they take numbers alone.
    let (ours, theirs) = unsafe {
        assert_eq!(sys::zaqnuti_before(p, q), x.total_cmp(&y).is_le());
        assert_eq!(sys::zaqnuti_pattern(x), pattern(x));
        (
            [
                sys::zaqnuti_sqrt(x),
                sys::zaqnuti_square(x),
                sys::zaqnuti_hypot(x, y),
                sys::zaqnuti_travel_sine(x),
                sys::zaqnuti_travel_cosine(x),
                sys::zaqnuti_radians(x),
                sys::zaqnuti_elevation_sine(x),
                sys::zaqnuti_elevation_sigma(x, y, z),
                sys::zaqnuti_abs(x),
                sys::zaqnuti_max(x, y),
            ],
            [
                x.sqrt(),
                x.square(),
                x.hypotenuse(y),
                travel_sine(x),
                travel_cosine(x),
                x.radians(),
                x.elevation_sine(),
                elevation_sigma(x, y, z),
                x.abs(),
                x.greater(y),
            ],
        )
    };
    assert_eq!(patterns(&ours), patterns(&theirs));
    assert_eq!(bits(&[ours[8]])[0] >> 63 & u64::from(!x.is_nan()), 0);
}
