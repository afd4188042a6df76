//! The entry point of north, east, down.

use zaqnuti::sys::zaqnuti_north_east_down;

/// North, east and down in the last and 0, or 19 and it untouched.
#[inline]
pub fn north_east_down(position: &[f64; 3], displacement: &[f64; 3], ned: &mut [f64; 3]) -> u8 {
    // SAFETY: each leads to three floats, and the last is ours alone.
    unsafe { zaqnuti_north_east_down(position, displacement, ned) }
}
