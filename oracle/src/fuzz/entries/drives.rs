//! A trip with settings: beginning, new settings, and a displacement under those in force.

use super::displacement::{displacement_input, Epoch};
use super::sys;
use super::trips::made_up;
use crate::ffi::Force;
use crate::fuzz::lent::Lender;
use crate::fuzz::Bytes;
use crate::services::drive::{settings_of, tested, travelled, under};
use crate::services::trip::started;

fn settings(b: &mut Bytes) -> Force {
    b.plain_above(31);
    Force {
        floats: std::array::from_fn(|_| b.float()),
        rounds: b.count(50),
    }
}

pub fn drive(b: &mut Bytes) {
    let (new, per_km, trip) = (settings(b), b.u16() >> (b.byte() % 16), made_up(b));
    let mut lender = Lender::new();
    let given = lender.lend(&new.floats);
    let words = lender.lend(&trip);
    let begun = lender.lend(&[b.u64(); 6]);
    let floats = [
        lender.lend(&[f64::from_bits(b.u64()); 5]),
        lender.lend(&[f64::NAN; 5]),
    ];
    let rounds = [lender.lend(&[b.u64() as usize]), lender.lend(&[77])];
    // SAFETY: each pointer leads to as many numbers as its type says.
    let numbers = unsafe {
        [
            sys::zaqnuti_trip_begin(
                given.at().cast(),
                new.rounds,
                per_km,
                begun.at().cast(),
                floats[0].at().cast(),
                rounds[0].at(),
            ),
            sys::zaqnuti_trip_settings(
                words.at().cast(),
                given.at().cast(),
                new.rounds,
                floats[1].at().cast(),
                rounds[1].at(),
            ),
        ]
    };
    given.kept();
    words.kept();
    let models = [under(&new, started(per_km)), under(&new, tested(&trip))];
    match models[0] {
        Ok((words, _)) => begun.holds(&words),
        Err(_) => begun.kept(),
    }
    for k in 0..2 {
        assert_eq!(numbers[k], models[k].err().unwrap_or(0));
        match models[k] {
            Ok((_, force)) => {
                floats[k].holds(&force.floats);
                rounds[k].holds(&[force.rounds]);
            }
            Err(_) => {
                floats[k].kept();
                rounds[k].kept();
            }
        }
    }
    displaced(b);
}

fn displaced(b: &mut Bytes) {
    let mut input = displacement_input(b);
    let (trip, pulses) = (made_up(b), b.u16());
    let mut lender = Lender::new();
    let p = Epoch::lend(b, &mut lender, &input.previous);
    let c = Epoch::lend(b, &mut lender, &input.current);
    let set = input.settings;
    let force = Force {
        floats: [set.screen, set.sigma_a, set.sigma_b, set.huber, set.mask],
        rounds: set.iterations,
    };
    let moved = if p.fits && c.fits {
        if p.count > input.previous.len() || c.count > input.current.len() {
            return;
        }
        input.previous.truncate(p.count);
        input.current.truncate(c.count);
        input.settings = settings_of(&force);
        input.answer()
    } else {
        Err(2)
    };
    let expected = travelled(&trip, moved, pulses);
    let words = lender.lend(&trip);
    let floats = lender.lend(&force.floats);
    let receiver = lender.lend(&input.receiver);
    let delta = lender.lend(&[f64::from_bits(b.u64()), f64::NAN, -0.0]);
    let counts = lender.lend(&[b.u64() as usize, 77]);
    // SAFETY: each pointer leads to what its length or its type says.
    let number = unsafe {
        sys::zaqnuti_trip_displacement(
            words.at().cast(),
            floats.at().cast(),
            force.rounds,
            p.constellation.at(),
            p.constellation.len(),
            p.svid.at(),
            p.svid.len(),
            p.band.at(),
            p.band.len(),
            p.state.at(),
            p.state.len(),
            p.floats.at(),
            p.floats.len(),
            p.count,
            c.constellation.at(),
            c.constellation.len(),
            c.svid.at(),
            c.svid.len(),
            c.band.at(),
            c.band.len(),
            c.state.at(),
            c.state.len(),
            c.floats.at(),
            c.floats.len(),
            c.count,
            input.dt,
            receiver.at().cast(),
            pulses,
            delta.at().cast(),
            counts.at().cast(),
        )
    };
    p.kept();
    c.kept();
    floats.kept();
    receiver.kept();
    match expected {
        Ok((after, d)) => {
            assert_eq!(number, 0);
            words.holds(&after);
            delta.holds(&[d.delta.x, d.delta.y, d.delta.z]);
            counts.holds(&[d.used, d.screened]);
        }
        Err(why) => {
            assert_eq!(number, why);
            words.kept();
            delta.kept();
            counts.kept();
        }
    }
}
