//! The stand-ins with which the published Rust is run: docs/SCOPE.md, "The reference".
//!
//! Each operation is rounded once and none is fused: Rust fuses nothing by itself.

/// The double nearest pi by 180, one rounded quotient.
const RADIANS_PER_DEGREE: f64 = core::f64::consts::PI / 180.0;

/// The largest travel angle that has a sine and a cosine, 2^-10.
const TRAVEL_LIMIT: f64 = 1.0 / 1024.0;

/// What the published Rust asks of `std` and `libm`, under names that `f64` has none of, so that a
/// substitution of the method's name is enough to take the stand-in.
pub trait StandIn {
    /// `powi(2)`: the number times itself.
    fn square(self) -> f64;
    /// `hypot`: the root of a·a + b·b.
    fn hypotenuse(self, other: f64) -> f64;
    /// `sin_cos` of a travel angle.
    fn travel_sine_cosine(self) -> (f64, f64);
    /// `to_radians`: times one rounded quotient.
    fn radians(self) -> f64;
    /// `sin` of an elevation.
    fn elevation_sine(self) -> f64;
    /// `max`: one NaN gives the other operand.
    fn greater(self, other: f64) -> f64;
}

impl StandIn for f64 {
    #[inline]
    fn square(self) -> f64 {
        self * self
    }

    #[inline]
    fn hypotenuse(self, other: f64) -> f64 {
        // `std` passes `sqrt` to the hardware, which rounds correctly as IEEE 754 says.
        (self * self + other * other).sqrt()
    }

    #[inline]
    fn travel_sine_cosine(self) -> (f64, f64) {
        (travel_sine(self), travel_cosine(self))
    }

    #[inline]
    fn radians(self) -> f64 {
        self * RADIANS_PER_DEGREE
    }

    #[inline]
    fn elevation_sine(self) -> f64 {
        let z = self * self;
        let mut s = -1.0 / 1_307_674_368_000.0;
        for c in [
            1.0 / 6_227_020_800.0,
            -1.0 / 39_916_800.0,
            1.0 / 362_880.0,
            -1.0 / 5_040.0,
            1.0 / 120.0,
            -1.0 / 6.0,
        ] {
            s = s * z + c;
        }
        self + self * (z * s)
    }

    #[inline]
    fn greater(self, other: f64) -> f64 {
        // Written out, since `f64::max` leaves open which of two zeros it gives.
        if self.is_nan() {
            other
        } else if other.is_nan() {
            self
        } else if self < other {
            other
        } else {
            self
        }
    }
}

/// The sine of a travel angle: t − ((t·t)·t)/6, a NaN above the limit.
#[inline]
pub fn travel_sine(t: f64) -> f64 {
    if t <= TRAVEL_LIMIT {
        t - ((t * t) * t) / 6.0
    } else {
        f64::NAN
    }
}

/// The cosine of a travel angle: 1 − (t·t)/2, a NaN above the limit.
#[inline]
pub fn travel_cosine(t: f64) -> f64 {
    if t <= TRAVEL_LIMIT {
        1.0 - (t * t) / 2.0
    } else {
        f64::NAN
    }
}

#[cfg(test)]
mod tests {
    use super::*;

    #[test]
    fn near_what_they_stand_for() {
        for k in 0..=9000 {
            let degrees = f64::from(k) / 100.0;
            let t = degrees.radians();
            assert!((t - degrees.to_radians()).abs() <= 1e-15);
            assert!((t.elevation_sine() - t.sin()).abs() <= 1e-11);
            let travel = degrees / 92_160.0;
            let (sin, cos) = travel.travel_sine_cosine();
            assert!((sin - travel.sin()).abs() <= 1e-17);
            assert!((cos - travel.cos()).abs() <= 1e-13);
            assert_eq!(degrees.square().to_bits(), degrees.powi(2).to_bits());
            assert!((degrees.hypotenuse(t) - degrees.hypot(t)).abs() <= 2e-14);
        }
        assert!(TRAVEL_LIMIT.travel_sine_cosine().1 < 1.0);
        assert!(TRAVEL_LIMIT.next_up().travel_sine_cosine().0.is_nan());
    }

    #[test]
    fn the_greater_of_two() {
        assert_eq!(1.0.greater(2.0), 2.0);
        assert_eq!(f64::NAN.greater(2.0), 2.0);
        assert_eq!(2.0.greater(f64::NAN), 2.0);
        assert!(f64::NAN.greater(f64::NAN).is_nan());
        assert!(0.0.greater(-0.0).is_sign_positive());
        assert!((-0.0).greater(0.0).is_sign_negative());
    }
}
