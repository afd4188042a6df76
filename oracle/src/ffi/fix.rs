//! The entry points of the fix and of its position alone.

use super::columns::{call, Columns};
use drifters_gnss::wls::Observation;
use zaqnuti::sys::{zaqnuti_fix, zaqnuti_position};

/// The observations of an epoch as the library takes them.
pub fn observations(records: &[Observation]) -> Columns<5> {
    Columns::of(records.iter().map(|o| {
        let [x, y, z] = o.satellite;
        (o.constellation, [o.pseudorange, x, y, z, o.elevation])
    }))
}

/// Solution and count in the last two and 0, or the number and both untouched.
#[inline]
pub fn fix(
    epoch: &Columns<5>,
    guess: &[f64; 3],
    settings: &[f64; 4],
    rounds: usize,
    solution: &mut [f64; 5],
    used: &mut usize,
) -> u8 {
    // SAFETY: each column has its length beside it, the arrays are as long as their types say, and
    // the last two are ours alone.
    unsafe {
        call!(zaqnuti_fix();
            [epoch.constellation], [epoch.floats], epoch.count,
            guess, settings, rounds, solution, used,)
    }
}

/// The position in the last and 0, or the number and it untouched.
pub fn position(
    epoch: &Columns<5>,
    guess: &[f64; 3],
    settings: &[f64; 4],
    rounds: usize,
    position: &mut [f64; 3],
) -> u8 {
    // SAFETY: as for the fix.
    unsafe {
        call!(zaqnuti_position();
            [epoch.constellation], [epoch.floats], epoch.count,
            guess, settings, rounds, position,)
    }
}
