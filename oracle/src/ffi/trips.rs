//! The entry points of a trip.

use zaqnuti::sys::{zaqnuti_trip_add, zaqnuti_trip_fuel, zaqnuti_trip_report, zaqnuti_trip_start};

/// A trip just started in the last and 0, or 16 and it untouched.
#[inline]
pub fn trip_start(per_km: u16, trip: &mut [u64; 6]) -> u8 {
    // SAFETY: the last is ours alone.
    unsafe { zaqnuti_trip_start(per_km, trip) }
}

/// One epoch more in the first and 0, or 16 and it untouched.
#[inline]
pub fn trip_add(trip: &mut [u64; 6], delta: &[f64; 3], pulses: u16) -> u8 {
    // SAFETY: the first is ours alone, the second is read.
    unsafe { zaqnuti_trip_add(trip, delta, pulses) }
}

/// The report in the last and 0, or 16 and it untouched.
#[inline]
pub fn trip_report(trip: &[u64; 6], report: &mut [u64; 4]) -> u8 {
    // SAFETY: the first is read, the last is ours alone.
    unsafe { zaqnuti_trip_report(trip, report) }
}

/// The fuel for a kilometre in the last and 0, or 16 or 17 and it untouched.
#[inline]
pub fn trip_fuel(trip: &[u64; 6], millilitres: u32, per_km: &mut u64) -> u8 {
    // SAFETY: the first is read, the last is ours alone.
    unsafe { zaqnuti_trip_fuel(trip, millilitres, per_km) }
}
