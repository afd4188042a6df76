//! The entry points of a mileage.

use zaqnuti::sys::{
    zaqnuti_mileage_add, zaqnuti_mileage_distance, zaqnuti_mileage_fuel, zaqnuti_mileage_report,
    zaqnuti_mileage_start,
};

/// Starts a mileage in the last; returns 0, or 3 and changes nothing.
#[inline]
pub fn mileage_start(limit: f64, mileage: &mut [u64; 10]) -> u8 {
    // SAFETY: the last is ours alone.
    unsafe { zaqnuti_mileage_start(limit, mileage) }
}

/// Adds an epoch to the first; returns 0, or 16 and changes nothing.
#[inline]
pub fn mileage_add(
    mileage: &mut [u64; 10],
    refused_by: u8,
    delta: &[f64; 3],
    quality: &[f64; 2],
    pulses: u16,
) -> u8 {
    // SAFETY: the first is ours alone, the displacement and the quality are read.
    unsafe { zaqnuti_mileage_add(mileage, refused_by, delta, quality, pulses) }
}

/// Writes the report to the last; returns 0, or 16 and changes nothing.
#[inline]
pub fn mileage_report(mileage: &[u64; 10], report: &mut [u64; 7]) -> u8 {
    // SAFETY: the first is read, the last is ours alone.
    unsafe { zaqnuti_mileage_report(mileage, report) }
}

/// Writes the distance to the last; returns 0, or 16 or 17 and changes nothing.
#[inline]
pub fn mileage_distance(mileage: &[u64; 10], millimetres: &mut u64) -> u8 {
    // SAFETY: the first is read, the last is ours alone.
    unsafe { zaqnuti_mileage_distance(mileage, millimetres) }
}

/// Writes the fuel for a kilometre to the last; returns 0, or 16 or 17 and changes nothing.
#[inline]
pub fn mileage_fuel(mileage: &[u64; 10], millilitres: u32, per_km: &mut u64) -> u8 {
    // SAFETY: the first is read, the last is ours alone.
    unsafe { zaqnuti_mileage_fuel(mileage, millilitres, per_km) }
}
