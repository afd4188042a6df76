//! East and north at a place, for pictures.

/// The square of the first eccentricity of WGS 84.
const E2: f64 = 6.694_379_990_141_316_5e-3;

/// The level plane at a place near the ground.
pub struct Plane {
    east: [f64; 3],
    north: [f64; 3],
}

impl Plane {
    /// Returns the plane at x, y, z.
    pub fn at([x, y, z]: [f64; 3]) -> Self {
        let (lat, lon) = (z.atan2(x.hypot(y) * (1.0 - E2)), y.atan2(x));
        let ((sa, ca), (so, co)) = (lat.sin_cos(), lon.sin_cos());
        Self {
            east: [-so, co, 0.0],
            north: [-sa * co, -sa * so, ca],
        }
    }

    /// Returns the parts of a vector to the east and to the north.
    pub fn parts(&self, [x, y, z]: [f64; 3]) -> [f64; 2] {
        [self.east, self.north].map(|[a, b, c]| a * x + b * y + c * z)
    }
}
