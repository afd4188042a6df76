//! Vectors, the Cholesky factor, the root and the other numbers that the estimators use.

use crate::refusal::answered;
use crate::{sys, Refusal};

/// Three floats.
#[derive(Clone, Copy, Debug, Default, PartialEq)]
pub struct Vec3 {
    /// The first.
    pub x: f64,
    /// The second.
    pub y: f64,
    /// The third.
    pub z: f64,
}

impl Vec3 {
    /// Returns the vector of three floats.
    pub const fn new(x: f64, y: f64, z: f64) -> Self {
        Self { x, y, z }
    }
}

/// A Cholesky factor of nine rows of nine, 0 above its diagonal.
#[derive(Clone, Copy, Debug, PartialEq)]
pub struct Cholesky {
    lower: [[f64; 9]; 9],
}

impl Cholesky {
    /// Factors a matrix; only its lower triangle is read.
    pub fn new(matrix: &[[f64; 9]; 9]) -> Result<Self, Refusal> {
        let mut lower = [[0.0; 9]; 9];
        // SAFETY: both point to 81 floats, and the second is ours alone.
        answered(unsafe { sys::zaqnuti_factor(matrix, &mut lower) })?;
        Ok(Self { lower })
    }

    /// Returns the lower triangle.
    pub const fn lower(&self) -> &[[f64; 9]; 9] {
        &self.lower
    }

    /// Solves `L Lᵀ x = b`.
    pub fn solve(&self, b: &[f64; 9]) -> [f64; 9] {
        let mut x = [0.0; 9];
        // SAFETY: each points to as many floats as its type says, and the last is ours alone.
        unsafe { sys::zaqnuti_solve(&self.lower, b, &mut x) };
        x
    }
}

/// Declares a safe function over an entry point that takes numbers and gives a number.
macro_rules! numbers {
    ($($(#[$about:meta])* $name:ident = $entry:ident($($x:ident: $t:ty),*) -> $r:ty;)*) => {
        $($(#[$about])*
        #[inline]
        pub fn $name($($x: $t),*) -> $r {
            // SAFETY: it takes numbers alone and asks nothing of its caller.
            unsafe { sys::$entry($($x),*) }
        })*
    };
}

numbers! {
    /// Returns the correctly rounded root.
    sqrt = zaqnuti_sqrt(x: f64) -> f64;
    /// Checks that the pattern a comes before b or is b, in IEEE 754's totalOrder.
    before = zaqnuti_before(a: u64, b: u64) -> bool;
    /// Returns the bits of x, 7FF8000000000000 for every NaN.
    pattern = zaqnuti_pattern(x: f64) -> u64;
    /// Returns x times x.
    square = zaqnuti_square(x: f64) -> f64;
    /// Returns the root of a·a + b·b.
    hypot = zaqnuti_hypot(a: f64, b: f64) -> f64;
    /// Returns the sine of a travel angle, a NaN above 2^-10.
    travel_sine = zaqnuti_travel_sine(t: f64) -> f64;
    /// Returns the cosine of a travel angle, a NaN above 2^-10.
    travel_cosine = zaqnuti_travel_cosine(t: f64) -> f64;
    /// Converts degrees to radians.
    radians = zaqnuti_radians(x: f64) -> f64;
    /// Returns the sine of an elevation in radians.
    elevation_sine = zaqnuti_elevation_sine(t: f64) -> f64;
    /// Returns x with its sign bit clear.
    abs = zaqnuti_abs(x: f64) -> f64;
    /// Returns the larger of a and b; one NaN gives the other operand.
    max = zaqnuti_max(a: f64, b: f64) -> f64;
}
