//! Not published; the re-exports that the published files ask for.

mod matrix;
mod quat;
mod real;
mod vec3;

pub use matrix::{Cholesky, Mat3, Matrix, Vector};
pub use quat::Quat;
pub use real::{Real, SMALL_ANGLE};
pub use vec3::Vec3;

use crate::F;

/// Radians in a degree; no compared service uses it.
pub const DEG_TO_RAD: F = core::f64::consts::PI / 180.0;
/// Degrees in a radian; no compared service uses it.
pub const RAD_TO_DEG: F = 180.0 / core::f64::consts::PI;
