//! Directions of satellites, and models of the ionosphere and the troposphere.

use std::f64::consts::PI;

use crate::orbit::{State, LIGHT, TURN};

/// The semi-major axis of WGS 84 and the square of its eccentricity.
const AXIS: f64 = 6_378_137.0;
const E2: f64 = 6.694_379_990_141_316_5e-3;

/// The parameters of the Klobuchar model, alpha before beta.
pub type Klobuchar = [f64; 8];

/// The direction of a satellite in rad and its range in m.
#[derive(Clone, Copy, Debug, Default, PartialEq)]
pub struct Direction {
    pub elevation: f64,
    pub azimuth: f64,
    pub range: f64,
}

/// The local frame and the zenith delay at a position.
#[derive(Clone, Copy)]
pub struct Sky {
    pub place: [f64; 3],
    latitude: f64,
    longitude: f64,
    height: f64,
    east: [f64; 3],
    north: [f64; 3],
    up: [f64; 3],
    /// The tropospheric delay at the zenith, m.
    zenith: f64,
}

fn dot([a, b, c]: [f64; 3], [x, y, z]: [f64; 3]) -> f64 {
    a * x + b * y + c * z
}

fn length(a: [f64; 3]) -> f64 {
    dot(a, a).sqrt()
}

/// Returns the line of sight to a satellite, with the earth's rotation while the signal travels.
fn sight([rx, ry, rz]: [f64; 3], [x, y, z]: [f64; 3]) -> [f64; 3] {
    let turn = TURN * length([x - rx, y - ry, z - rz]) / LIGHT;
    let (sin, cos) = turn.sin_cos();
    [x * cos + y * sin - rx, y * cos - x * sin - ry, z - rz]
}

/// Returns the length of the line of sight, m.
pub fn range(from: [f64; 3], satellite: [f64; 3]) -> f64 {
    length(sight(from, satellite))
}

/// Returns latitude, longitude (rad) and ellipsoidal height (m) on WGS 84.
pub fn geodetic([x, y, z]: [f64; 3]) -> [f64; 3] {
    let across = x * x + y * y;
    let (mut zk, mut last, mut normal) = (z, f64::INFINITY, AXIS);
    for _ in 0..20 {
        if (zk - last).abs() < 1e-4 {
            break;
        }
        last = zk;
        let sin = zk / (across + zk * zk).sqrt();
        normal = AXIS / (1.0 - E2 * sin * sin).sqrt();
        zk = z + normal * E2 * sin;
    }
    let latitude = zk.atan2(across.sqrt());
    let height = (across + zk * zk).sqrt() - normal;
    [latitude, y.atan2(x), height]
}

impl Sky {
    /// Computes the sky at x, y, z.
    pub fn over(place: [f64; 3]) -> Self {
        let [latitude, longitude, height] = geodetic(place);
        let ((sa, ca), (so, co)) = (latitude.sin_cos(), longitude.sin_cos());
        Self {
            place,
            latitude,
            longitude,
            height,
            east: [-so, co, 0.0],
            north: [-sa * co, -sa * so, ca],
            up: [ca * co, ca * so, sa],
            zenith: zenith(latitude, height),
        }
    }

    /// Returns the height above the ellipsoid, m.
    pub fn height(&self) -> f64 {
        self.height
    }

    /// Returns the direction of a satellite, with the earth's rotation while the signal travels.
    pub fn direction(&self, satellite: [f64; 3]) -> Direction {
        let to = sight(self.place, satellite);
        let range = length(to);
        let unit = to.map(|d| d / range);
        Direction {
            elevation: dot(self.up, unit).clamp(-1.0, 1.0).asin(),
            azimuth: dot(self.east, unit).atan2(dot(self.north, unit)),
            range,
        }
    }

    /// Returns the range rate of a satellite, m/s; receding is positive.
    pub fn receding(&self, of: &State) -> f64 {
        let after = |seconds: f64| {
            let ([x, y, z], [vx, vy, vz]) = (of.place, of.velocity);
            range(
                self.place,
                [x + vx * seconds, y + vy * seconds, z + vz * seconds],
            )
        };
        after(0.5) - after(-0.5)
    }

    /// Returns the Klobuchar delay of GPS L1 in m (IS-GPS-200, 20.3.3.5.2.5).
    pub fn ionosphere(&self, to: &Direction, numbers: &Klobuchar, second: f64) -> f64 {
        if to.elevation <= 0.0 {
            return 0.0;
        }
        let elevation = to.elevation / PI;
        let (sin, cos) = to.azimuth.sin_cos();
        let psi = 0.0137 / (elevation + 0.11) - 0.022;
        let latitude = (self.latitude / PI + psi * cos).clamp(-0.416, 0.416);
        let longitude = self.longitude / PI + psi * sin / (latitude * PI).cos();
        let magnetic = latitude + 0.064 * ((longitude - 1.617) * PI).cos();
        let local = (43_200.0 * longitude + second).rem_euclid(86_400.0);
        let slant = 1.0 + 16.0 * (0.53 - elevation).powi(3);
        let [a0, a1, a2, a3, b0, b1, b2, b3] = *numbers;
        let cubic = |a, b, c, d: f64| a + magnetic * (b + magnetic * (c + magnetic * d));
        let height = f64::max(cubic(a0, a1, a2, a3), 0.0);
        let period = f64::max(cubic(b0, b1, b2, b3), 72_000.0);
        let x = 2.0 * PI * (local - 50_400.0) / period;
        let day = match x.abs() < 1.57 {
            true => height * (1.0 + x * x * (-0.5 + x * x / 24.0)),
            false => 0.0,
        };
        LIGHT * slant * (5e-9 + day)
    }

    /// Returns the Saastamoinen delay in m.
    pub fn troposphere(&self, to: &Direction) -> f64 {
        match to.elevation <= 0.0 {
            true => 0.0,
            false => self.zenith / to.elevation.sin(),
        }
    }
}

/// Returns the Saastamoinen zenith delay in the standard atmosphere at 70 % humidity.
fn zenith(latitude: f64, height: f64) -> f64 {
    if !(-100.0..=10_000.0).contains(&height) {
        return 0.0;
    }
    let height = height.max(0.0);
    let pressure = 1013.25 * (1.0 - 2.2557e-5 * height).powf(5.2568);
    let kelvin = 15.0 - 6.5e-3 * height + 273.16;
    let vapour = 6.108 * 0.7 * ((17.15 * kelvin - 4684.0) / (kelvin - 38.45)).exp();
    let shape = 1.0 - 0.00266 * (2.0 * latitude).cos() - 0.00028 * height / 1e3;
    0.0022768 * pressure / shape + 0.002277 * (1255.0 / kelvin + 0.05) * vapour
}

#[cfg(test)]
mod tests {
    use super::*;

    /// Station 0759 of GEONET.
    const PLACE: [f64; 3] = [-3_976_219.508_2, 3_382_372.567_1, 3_652_512.984_9];
    /// The GPS broadcast of 2005-04-02.
    const NUMBERS: Klobuchar = [
        1.118e-8, 1.49e-8, -5.96e-8, -5.96e-8, 8.806e4, 1.638e4, -1.966e5, -1.311e5,
    ];

    #[test]
    fn places_have_a_latitude() {
        let [latitude, longitude, height] = geodetic(PLACE);
        // By RTKLIB's ecef2pos.
        assert!(
            (latitude.to_degrees() - 35.160_870_4).abs() < 1e-4,
            "{}",
            latitude.to_degrees()
        );
        assert!((longitude.to_degrees() - 139.613_837_5).abs() < 1e-4);
        assert!((height - 73.0).abs() < 10.0, "{height}");
        let [latitude, _, height] = geodetic([0.0, 0.0, 6_356_752.314_2]);
        assert!((latitude.to_degrees() - 90.0).abs() < 1e-9 && height.abs() < 1e-3);
        let [latitude, _, height] = geodetic([6_378_137.0, 0.0, 0.0]);
        assert!(latitude == 0.0 && height.abs() < 1e-9);
    }

    #[test]
    fn delays_are_those_of_rtklib() {
        let sky = Sky::over(PLACE);
        // Satellites 3 and 11 at 518,400 s: place, elevation, ionosphere, both delays.
        #[rustfmt::skip]
        let lines = [
            ([-24_595_184.340_9, -10_320_589.582_4, 1_244_218.674_2], 9.7076, 9.3452, 23.6206),
            ([10_026_487.690_1, 18_601_864.069_0, 16_597_421.853_9], 16.1755, 4.9513, 13.5920),
        ];
        for (satellite, elevation, ionosphere, both) in lines {
            let to = sky.direction(satellite);
            assert!((to.elevation.to_degrees() - elevation).abs() < 1e-3);
            let i = sky.ionosphere(&to, &NUMBERS, 518_400.0);
            let t = sky.troposphere(&to);
            assert!((i - ionosphere).abs() < 1e-3, "{i}");
            assert!((i + t - both).abs() < 3e-3, "{}", i + t);
        }
    }

    /// Returns the position of a latitude, a longitude (degrees) and a height.
    fn position(latitude: f64, longitude: f64, height: f64) -> [f64; 3] {
        let ((sin, cos), (so, co)) = (
            latitude.to_radians().sin_cos(),
            longitude.to_radians().sin_cos(),
        );
        let normal = AXIS / (1.0 - E2 * sin * sin).sqrt();
        let across = (normal + height) * cos;
        [
            across * co,
            across * so,
            (normal * (1.0 - E2) + height) * sin,
        ]
    }

    #[test]
    fn the_ionosphere_is_that_of_rtklibs_unit_test() {
        // test/utest/t_atmos.c of RTKLIB 2.4.3: 2007-01-16, hour, position, azimuth, elevation, m.
        let numbers = [2e-8, -8e-9, -5e-8, 1e-7, 2e5, 2e5, -1e5, -1e6];
        let [a, b, c] = [
            [35.0, 140.0, 100.0],
            [-80.0, -170.0, 1e3],
            [10.0, 30.0, 0.0],
        ];
        let cases = [
            (1.0, a, 60.0, 75.0, 6.735_905_320_994_38),
            (1.0, b, 60.0, 75.0, 3.568_953_821_973_87),
            (1.0, c, 60.0, 75.0, 3.807_164_356_551_61),
            (13.0, a, 60.0, 75.0, 5.217_969_545_854_52),
            (22.0, a, 60.0, 75.0, 5.901_905_392_647_77),
            (1.0, a, 190.0, 3.0, 21.634_541_512_363_2),
            (1.0, a, 350.0, 60.0, 7.338_442_788_225_61),
            (1.0, a, 0.0, 90.0, 6.583_397_114_006_94),
        ];
        for (hour, [latitude, longitude, height], azimuth, elevation, delay) in cases {
            let sky = Sky::over(position(latitude, longitude, height));
            let to = Direction {
                elevation: f64::to_radians(elevation),
                azimuth: f64::to_radians(azimuth),
                range: 2e7,
            };
            let found = sky.ionosphere(&to, &numbers, 172_800.0 + 3_600.0 * hour);
            assert!((found - delay).abs() < 1e-8, "{found} {delay}");
        }
    }

    #[test]
    fn nothing_is_modelled_below_the_horizon_or_out_of_the_air() {
        let sky = Sky::over(PLACE);
        let below = sky.direction([3.0e6, -3.0e6, -2.6e7]);
        assert!(below.elevation < 0.0);
        assert_eq!(sky.ionosphere(&below, &NUMBERS, 0.0), 0.0);
        assert_eq!(sky.troposphere(&below), 0.0);
        let high = Sky::over(PLACE.map(|x| x * 1.01));
        let up = high.direction(PLACE.map(|x| x * 4.0));
        assert_eq!(high.troposphere(&up), 0.0);
    }

    #[test]
    fn ranges_have_the_earths_turn() {
        let sky = Sky::over(PLACE);
        let satellite = [-24_595_184.340_9, -10_320_589.582_4, 1_244_218.674_2];
        let [x, y, z] = satellite;
        let [a, b, c] = PLACE;
        let straight = ((x - a).powi(2) + (y - b).powi(2) + (z - c).powi(2)).sqrt();
        let sagnac = TURN * (x * b - y * a) / LIGHT;
        let gap = sky.direction(satellite).range - straight - sagnac;
        assert!(gap.abs() < 1e-3, "{gap}");
        let velocity = [-4.395_76, -402.050_19, -3_077.241_97];
        let place = satellite;
        let rate = sky.receding(&State { place, velocity });
        assert!((rate - 523.0703).abs() < 0.02, "{rate}");
    }
}
