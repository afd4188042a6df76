//! The entry points of a trip with settings.

use super::columns::call;
use super::Carriers;
use zaqnuti::sys::{zaqnuti_trip_begin, zaqnuti_trip_displacement, zaqnuti_trip_settings};

/// Settings in force: five floats and the rounds.
#[derive(Clone, Copy)]
pub struct Force {
    pub floats: [f64; 5],
    pub rounds: usize,
}

/// A trip just started and its settings in force in the last two and 0, or the number and both untouched.
#[inline]
pub fn trip_begin(settings: &Force, per_km: u16, trip: &mut [u64; 6], force: &mut Force) -> u8 {
    // SAFETY: the first is read, and the last three are ours alone.
    unsafe {
        zaqnuti_trip_begin(
            &settings.floats,
            settings.rounds,
            per_km,
            trip,
            &mut force.floats,
            &mut force.rounds,
        )
    }
}

/// New settings in the last and 0, or the number and it untouched.
#[inline]
pub fn trip_settings(trip: &[u64; 6], settings: &Force, force: &mut Force) -> u8 {
    // SAFETY: the first two are read, and the last two are ours alone.
    unsafe {
        zaqnuti_trip_settings(
            trip,
            &settings.floats,
            settings.rounds,
            &mut force.floats,
            &mut force.rounds,
        )
    }
}

/// The trip with a displacement, the displacement and its counts in the first and the last two and 0, or the number and all untouched.
#[inline]
#[allow(clippy::too_many_arguments)]
pub fn trip_displacement(
    trip: &mut [u64; 6],
    force: &Force,
    previous: &Carriers,
    current: &Carriers,
    dt: f64,
    receiver: &[f64; 3],
    pulses: u16,
    delta: &mut [f64; 3],
    counts: &mut [usize; 2],
) -> u8 {
    // SAFETY: each column has its length beside it, the arrays are as long as their types say, and
    // the trip and the last two are ours alone.
    unsafe {
        call!(zaqnuti_trip_displacement();
            trip, &force.floats, force.rounds,
            [previous.columns.constellation], [previous.svid], [previous.band], [previous.state],
            [previous.columns.floats], previous.columns.count,
            [current.columns.constellation], [current.svid], [current.band], [current.state],
            [current.columns.floats], current.columns.count,
            dt, receiver, pulses, delta, counts,)
    }
}
