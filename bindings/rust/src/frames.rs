//! Displacements by compass: north, east and down at a place.

use crate::refusal::answered;
use crate::{sys, Ecef, Refusal, Vec3};

/// A displacement by compass, metres.
#[derive(Clone, Copy, Debug, Default, PartialEq)]
pub struct Ned {
    /// North; below 0 it is south.
    pub n: f64,
    /// East; below 0 it is west.
    pub e: f64,
    /// Down; below 0 it is up.
    pub d: f64,
}

/// Returns a displacement at a place as north, east and down, all finite. No angles are used.
///
/// ```
/// use zaqnuti::frames::north_east_down;
/// use zaqnuti::{Ecef, Refusal, Vec3};
///
/// // Where longitude 0 meets the equator z is north, y is east and x is up.
/// let place = Ecef::new(6378137.0, 0.0, 0.0);
/// let moved = north_east_down(place, Vec3::new(1.0, 2.0, 3.0))?;
/// assert_eq!((moved.n, moved.e, moved.d), (3.0, 2.0, -1.0));
///
/// // On the earth's axis there is an answer too; beyond 1e9 m there is none.
/// assert!(north_east_down(Ecef::new(0.0, 0.0, 6356752.0), Vec3::new(1.0, 2.0, 3.0)).is_ok());
/// let far = north_east_down(Ecef::new(2e9, 0.0, 0.0), Vec3::new(0.0, 0.0, 0.0));
/// assert_eq!(far.unwrap_err(), Refusal::NotTurned);
/// # Ok::<(), Refusal>(())
/// ```
///
/// # Errors
///
/// [`Refusal::NotTurned`] if a coordinate of either is not finite or above 1e9 in magnitude, or a
/// component of the result is not finite.
pub fn north_east_down(place: Ecef, displacement: Vec3) -> Result<Ned, Refusal> {
    let by = [displacement.x, displacement.y, displacement.z];
    let mut ned = [0.0; 3];
    // SAFETY: each leads to three floats, and the last is ours alone.
    answered(unsafe { sys::zaqnuti_north_east_down(&place.coordinates(), &by, &mut ned) })?;
    let [n, e, d] = ned;
    Ok(Ned { n, e, d })
}
