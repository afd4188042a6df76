//! The entry points of clocks, centre, elevation sigma, sight line and the round called by itself.

use super::Column;
use zaqnuti::sys::{
    zaqnuti_centre, zaqnuti_clocks_given, zaqnuti_clocks_new, zaqnuti_clocks_slot,
    zaqnuti_clocks_unknowns, zaqnuti_elevation_sigma, zaqnuti_geometry, zaqnuti_round,
};

/// The rows of a round as the library takes them: columns, of which each may be longer or shorter
/// than the count needs; three floats of unit vector for each row.
#[derive(Default)]
pub struct Rows {
    pub units: Vec<f64>,
    pub clocks: Vec<usize>,
    pub residuals: Vec<u64>,
    pub sigmas: Vec<f64>,
    pub count: usize,
}

impl Rows {
    /// Whether each column has what the count needs.
    pub fn whole(&self) -> bool {
        let shortest = [
            self.units.len() / 3,
            self.clocks.len(),
            self.residuals.len(),
            self.sigmas.len(),
        ];
        shortest.iter().all(|&n| n >= self.count)
    }
}

/// The state of no constellation given, in place.
pub fn clocks_new(slot: &mut [usize; 8], count: &mut usize) {
    // SAFETY: both point to what their types say, apart and ours alone.
    unsafe { zaqnuti_clocks_new(slot, count) }
}

/// Three coordinates and the clocks.
pub fn clocks_unknowns(slot: &[usize; 8], count: usize) -> usize {
    // SAFETY: it points to eight numbers.
    unsafe { zaqnuti_clocks_unknowns(slot, count) }
}

/// One constellation more, in place.
pub fn clocks_given(slot: &mut [usize; 8], count: &mut usize, constellation: u8) {
    // SAFETY: both point to what their types say, apart and ours alone.
    unsafe { zaqnuti_clocks_given(slot, count, constellation) }
}

/// The slot of a constellation.
pub fn clocks_slot(slot: &[usize; 8], constellation: u8) -> usize {
    // SAFETY: it points to eight numbers.
    unsafe { zaqnuti_clocks_slot(slot, constellation) }
}

/// Centre and scale in out and 0, or 2 and out untouched.
#[inline]
pub fn centre(residuals: &[u64], out: &mut [f64; 2]) -> u8 {
    // SAFETY: the first points to as many numbers as are said, the last to two floats, ours alone.
    unsafe { zaqnuti_centre(residuals.as_ptr(), residuals.len(), out) }
}

/// The sigma of an elevation in degrees.
#[inline]
pub fn elevation_sigma(elevation: f64, a: f64, b: f64) -> f64 {
    // SAFETY: it takes numbers alone.
    unsafe { zaqnuti_elevation_sigma(elevation, a, b) }
}

/// The unit vector from satellite to receiver and the range in out and 0, or 15 and out untouched.
#[inline]
pub fn geometry(satellite: &[f64; 3], receiver: &[f64; 3], out: &mut [f64; 4]) -> u8 {
    // SAFETY: each points to as many floats as its type says, and the last is ours alone.
    unsafe { zaqnuti_geometry(satellite, receiver, out) }
}

/// The step in dx and 0, or the number and dx untouched.
#[inline]
pub fn round(rows: &Rows, unknowns: usize, huber: f64, dx: &mut Column) -> u8 {
    // SAFETY: each pointer has its length beside it, and the last is nine floats, ours alone.
    unsafe {
        zaqnuti_round(
            rows.units.as_ptr(),
            rows.units.len(),
            rows.clocks.as_ptr(),
            rows.clocks.len(),
            rows.residuals.as_ptr(),
            rows.residuals.len(),
            rows.sigmas.as_ptr(),
            rows.sigmas.len(),
            rows.count,
            unknowns,
            huber,
            dx,
        )
    }
}
