//! A safe function over each C entry point of the Rattle library, on columns of any length: the bindings' own fit theirs to the count.

mod columns;
mod directions;
mod displacement;
mod drives;
mod fix;
mod line;
mod mileages;
mod robust;
mod times;
mod trips;
mod wire;

pub use columns::Columns;
pub use directions::*;
pub use displacement::*;
pub use drives::*;
pub use fix::*;
pub use line::*;
pub use mileages::*;
pub use robust::*;
pub use times::*;
pub use trips::*;
pub use wire::*;
pub use zaqnuti::math::{
    abs, before, elevation_sine, hypot, max, pattern, radians, sqrt, square, travel_cosine,
    travel_sine,
};

use crate::services::track::Input;
use zaqnuti::sys::{zaqnuti_factor, zaqnuti_smooth, zaqnuti_solve};

/// Nine rows of nine floats.
pub type Square = [[f64; 9]; 9];
/// Nine floats.
pub type Column = [f64; 9];

/// The factor of a in l and 0, or 10 and l untouched.
#[inline]
pub fn factor(a: &Square, l: &mut Square) -> u8 {
    // SAFETY: both point to nine rows of nine floats, and the second is ours alone.
    unsafe { zaqnuti_factor(a, l) }
}

/// The solution of l lᵀ x = b.
#[inline]
pub fn solve(l: &Square, b: &Column) -> Column {
    let mut x = [0.0; 9];
    // SAFETY: each points to as many floats as its type says, and the last is ours alone.
    unsafe { zaqnuti_solve(l, b, &mut x) };
    x
}

/// The track in result and 0, or the number of the refusal.
#[inline]
pub fn track(input: &Input, result: &mut [f64], work: &mut [f64]) -> u8 {
    let (a, l) = (&input.anchors, &input.links);
    // SAFETY: each pointer is given with its length, and the last two are ours alone.
    unsafe {
        zaqnuti_smooth(
            input.n,
            a.count,
            l.count,
            a.index.as_ptr(),
            a.index.len(),
            a.value.as_ptr(),
            a.value.len(),
            a.sigma.as_ptr(),
            a.sigma.len(),
            l.index.as_ptr(),
            l.index.len(),
            l.value.as_ptr(),
            l.value.len(),
            l.sigma.as_ptr(),
            l.sigma.len(),
            input.huber,
            input.iterations,
            result.as_mut_ptr(),
            result.len(),
            work.as_mut_ptr(),
            work.len(),
        )
    }
}
