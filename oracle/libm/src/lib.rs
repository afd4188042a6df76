//! The functions of the crate `libm` that the published `math/real.rs` names.
//!
//! The root and `hypot` are the stand-ins of docs/SCOPE.md. The others are `std`'s: no compared service
//! reaches them.

use standins::StandIn;

/// Sine, by `std`.
pub fn sin(x: f64) -> f64 {
    x.sin()
}

/// Cosine, by `std`.
pub fn cos(x: f64) -> f64 {
    x.cos()
}

/// Tangent, by `std`.
pub fn tan(x: f64) -> f64 {
    x.tan()
}

/// Arcsine, by `std`.
pub fn asin(x: f64) -> f64 {
    x.asin()
}

/// Arctangent of a quotient, by `std`.
pub fn atan2(y: f64, x: f64) -> f64 {
    y.atan2(x)
}

/// The correctly rounded root: `std` passes it to the hardware.
#[inline]
pub fn sqrt(x: f64) -> f64 {
    x.sqrt()
}

/// The number without its sign.
#[inline]
pub fn fabs(x: f64) -> f64 {
    x.abs()
}

/// The stand-in for `hypot`.
#[inline]
pub fn hypot(x: f64, y: f64) -> f64 {
    x.hypotenuse(y)
}

/// A real power, by `std`.
pub fn pow(x: f64, n: f64) -> f64 {
    x.powf(n)
}

/// The largest whole number at most x, by `std`.
pub fn floor(x: f64) -> f64 {
    x.floor()
}

/// Sine and cosine, by `std`.
pub fn sincos(x: f64) -> (f64, f64) {
    x.sin_cos()
}
