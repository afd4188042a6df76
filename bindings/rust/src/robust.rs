//! The pieces of the robust least squares, each a call of its own.

use crate::refusal::answered;
use crate::{column, columns, sys, Refusal};

/// Position plus one clock per supported constellation.
pub const NX: usize = 9;

/// One observation's contribution to the normal equations.
#[derive(Clone, Copy, Debug, PartialEq)]
pub struct Row {
    /// Line-of-sight unit vector.
    pub unit: [f64; 3],
    /// Which clock column this row belongs to, at most 8.
    pub clock: usize,
    /// Measured minus predicted, in metres.
    pub residual: f64,
    /// One-sigma weight for this observation, metres.
    pub sigma: f64,
}

/// Assigns a clock column to each constellation present.
#[derive(Clone, Copy, Debug, PartialEq, Eq)]
pub struct Clocks {
    slot: [usize; 8],
    count: usize,
}

impl Default for Clocks {
    fn default() -> Self {
        Self::assign(core::iter::empty())
    }
}

impl Clocks {
    /// Assign columns in the order constellations are first seen.
    pub fn assign(constellations: impl Iterator<Item = u8>) -> Self {
        let (mut slot, mut count) = ([0; 8], 0);
        // SAFETY: both are ours alone.
        unsafe { sys::zaqnuti_clocks_new(&mut slot, &mut count) };
        for constellation in constellations {
            // SAFETY: both are ours alone.
            unsafe { sys::zaqnuti_clocks_given(&mut slot, &mut count, constellation) };
        }
        Self { slot, count }
    }

    /// Returns the column for a constellation, or `usize::MAX` if it was not assigned.
    pub fn slot(&self, constellation: u8) -> usize {
        // SAFETY: it points to eight slots.
        unsafe { sys::zaqnuti_clocks_slot(&self.slot, constellation) }
    }

    /// Returns how many distinct constellations were seen.
    pub fn count(&self) -> usize {
        self.count
    }

    /// Returns the number of unknowns: three position components plus the clocks.
    pub fn unknowns(&self) -> usize {
        // SAFETY: it points to eight slots.
        unsafe { sys::zaqnuti_clocks_unknowns(&self.slot, self.count) }
    }
}

/// Returns robust centre and scale of a residual sample: the median, and 1.4826·MAD.
pub fn centre_scale(residuals: &[f64]) -> Result<(f64, f64), Refusal> {
    // One more than is allowed, so that the library refuses a longer sample.
    let patterns: [u64; crate::RECORDS + 1] =
        core::array::from_fn(|i| residuals.get(i).map_or(0, |r| r.to_bits()));
    let mut out = [0.0; 2];
    // SAFETY: the first has as many patterns as are said, and the last is ours alone.
    let number = unsafe {
        sys::zaqnuti_centre(
            patterns.as_ptr(),
            residuals.len().min(patterns.len()),
            &mut out,
        )
    };
    answered(number)?;
    Ok((out[0], out[1]))
}

/// Returns one Gauss-Newton step of the Huber-weighted normal equations.
pub fn step(rows: &[Row], unknowns: usize, huber: f64) -> Result<[f64; NX], Refusal> {
    let units = columns(rows, |r| r.unit);
    let units = units.as_flattened();
    let clocks = column(rows, |r| r.clock);
    let residuals = column(rows, |r| r.residual.to_bits());
    let sigmas = column(rows, |r| r.sigma);
    let mut dx = [0.0; NX];
    // SAFETY: each column has its length beside it, and the last is ours alone.
    let number = unsafe {
        sys::zaqnuti_round(
            units.as_ptr(),
            units.len(),
            clocks.as_ptr(),
            clocks.len(),
            residuals.as_ptr(),
            residuals.len(),
            sigmas.as_ptr(),
            sigmas.len(),
            rows.len(),
            unknowns,
            huber,
            &mut dx,
        )
    };
    answered(number)?;
    Ok(dx)
}

/// Returns the elevation-dependent one-sigma, `σ = a + b/sin(el)`, from degrees.
pub fn elevation_sigma(elevation: f64, a: f64, b: f64) -> f64 {
    // SAFETY: it takes numbers alone.
    unsafe { sys::zaqnuti_elevation_sigma(elevation, a, b) }
}

/// Returns the unit vector from the satellite to the receiver, and the range in metres, with the
/// earth's rotation during the signal's travel removed. Refused if the range is zero or not finite.
pub fn geometry(satellite: [f64; 3], at: crate::Ecef) -> Result<([f64; 3], f64), Refusal> {
    let mut out = [0.0; 4];
    // SAFETY: each points to as many floats as its type says, and the last is ours alone.
    answered(unsafe { sys::zaqnuti_geometry(&satellite, &at.coordinates(), &mut out) })?;
    let [x, y, z, range] = out;
    Ok(([x, y, z], range))
}
