//! The forces on a navigation satellite: the earth, the moon, the sun and its light.

use std::f64::consts::TAU;

use crate::orbit::State;

/// The earth's rotation rate, rad/s, its gravity, m³/s², and its radius, m (JGM-3).
pub const TURN: f64 = 7.292_115e-5;
const GRAVITY: f64 = 3.986_004_415e14;
const RADIUS: f64 = 6_378_136.3;
/// The gravity of the sun and of the moon, m³/s².
const SUN: f64 = 1.327_124_4e20;
const MOON: f64 = 4.902_8e12;
/// The acceleration by sunlight of usual satellites, m/s².
const LIGHT: f64 = 1.0e-7;

/// The terms of the earth's gravity: degree, order, and their coefficients of cosine and sine
/// (JGM-3, not normalized).
const FIELD: [(usize, usize, f64, f64); 12] = [
    (0, 0, 1.0, 0.0),
    (2, 0, -1.082_626_925_6e-3, 0.0),
    (2, 2, 1.574_460_375e-6, -9.038_038_066e-7),
    (3, 0, 2.532_435_346e-6, 0.0),
    (3, 1, 2.192_638_529e-6, 2.684_248_903e-7),
    (3, 2, 3.089_892_069e-7, -2.114_376_124e-7),
    (3, 3, 1.005_487_781e-7, 1.972_225_590e-7),
    (4, 0, 1.619_331_205e-6, 0.0),
    (4, 1, -5.087_993_604e-7, -4.491_448_728e-7),
    (4, 2, 7.841_758_598e-8, 1.481_778_683e-7),
    (4, 3, 5.920_994_026e-8, -1.200_776_676e-8),
    (4, 4, -3.984_074_118e-9, 6.525_714_254e-9),
];
/// The number of degrees and orders of the harmonics that these need.
const ORDERS: usize = 6;

type Harmonics = [[f64; ORDERS]; ORDERS];

fn length([x, y, z]: [f64; 3]) -> f64 {
    (x * x + y * y + z * z).sqrt()
}

/// Returns the solid harmonics at a position, by Cunningham's recursion.
fn harmonics(place: [f64; 3]) -> (Harmonics, Harmonics) {
    let square: f64 = place.iter().map(|x| x * x).sum();
    let [x, y, z] = place.map(|x| x * RADIUS / square);
    let rho = RADIUS * RADIUS / square;
    let (mut v, mut w) = ([[0.0; ORDERS]; ORDERS], [[0.0; ORDERS]; ORDERS]);
    v[0][0] = RADIUS / square.sqrt();
    for m in 0..ORDERS {
        if m > 0 {
            let (k, a, b) = ((2 * m - 1) as f64, v[m - 1][m - 1], w[m - 1][m - 1]);
            v[m][m] = k * (x * a - y * b);
            w[m][m] = k * (x * b + y * a);
        }
        for n in m + 1..ORDERS {
            let (a, b, c) = ((2 * n - 1) as f64, (n + m - 1) as f64, (n - m) as f64);
            let last = |of: &Harmonics| if n > m + 1 { of[n - 2][m] } else { 0.0 };
            v[n][m] = (a * z * v[n - 1][m] - b * rho * last(&v)) / c;
            w[n][m] = (a * z * w[n - 1][m] - b * rho * last(&w)) / c;
        }
    }
    (v, w)
}

/// Returns the earth's gravity at a position.
fn earth(place: [f64; 3]) -> [f64; 3] {
    let (v, w) = harmonics(place);
    let mut sum = [0.0; 3];
    for (n, m, c, s) in FIELD {
        let (v, w, k) = (&v[n + 1], &w[n + 1], (n - m + 1) as f64);
        let part = match m {
            0 => [-c * v[1], -c * w[1]],
            _ => {
                let (up, down) = (m + 1, m - 1);
                let k = k * (k + 1.0);
                [
                    0.5 * (-c * v[up] - s * w[up] + k * (c * v[down] + s * w[down])),
                    0.5 * (-c * w[up] + s * v[up] + k * (s * v[down] - c * w[down])),
                ]
            }
        };
        sum[0] += part[0];
        sum[1] += part[1];
        sum[2] -= k * (c * v[m] + s * w[m]);
    }
    sum.map(|a| a * GRAVITY / (RADIUS * RADIUS))
}

/// The positions of the sun and the moon, earth-fixed, m.
pub struct Bodies {
    sun: [f64; 3],
    moon: [f64; 3],
}

impl Bodies {
    /// Computes them to 0.1 degrees at a second of GPS time, counted from 1980-01-06.
    pub fn at(second: f64) -> Self {
        let days = second / 86_400.0 - 7_300.5;
        let turn = TAU * (0.779_057_273_264 + 1.002_737_909_350_795 * days).fract();
        Self {
            sun: earth_fixed(sun(days / 36_525.0), turn),
            moon: earth_fixed(moon(days / 36_525.0), turn),
        }
    }

    /// Returns their pull on a satellite relative to that on the earth.
    pub fn pull(&self, place: [f64; 3]) -> [f64; 3] {
        let one = |body: [f64; 3], gravity: f64| {
            let to = [0, 1, 2].map(|i| body[i] - place[i]);
            let (near, far) = (length(to).powi(3), length(body).powi(3));
            [0, 1, 2].map(|i| gravity * (to[i] / near - body[i] / far))
        };
        let (sun, moon) = (one(self.sun, SUN), one(self.moon, MOON));
        [0, 1, 2].map(|i| sun[i] + moon[i])
    }

    /// Returns the acceleration of a satellite in the earth-fixed frame.
    pub fn acceleration(&self, of: &State) -> [f64; 3] {
        let ([x, y, _], [vx, vy, _]) = (of.place, of.velocity);
        let frame = [
            TURN * (TURN * x + 2.0 * vy),
            TURN * (TURN * y - 2.0 * vx),
            0.0,
        ];
        let (near, pull) = (earth(of.place), self.pull(of.place));
        let far = length(self.sun);
        [0, 1, 2].map(|i| near[i] + pull[i] + frame[i] - LIGHT * self.sun[i] / far)
    }
}

/// Returns an angle in rad that is given in degrees and grows by degrees a century.
fn angle(start: f64, rate: f64, centuries: f64) -> f64 {
    (start + rate * centuries).rem_euclid(360.0).to_radians()
}

fn arc_seconds(x: f64) -> f64 {
    (x / 3_600.0).to_radians()
}

/// Returns the sun's ecliptic longitude and latitude in rad and its distance in m, some centuries
/// after 2000 (Montenbruck and Gill, Satellite Orbits, 3.3.2).
fn sun(t: f64) -> [f64; 3] {
    let m = angle(357.525_6, 35_999.049, t);
    let more = arc_seconds(6_892.0 * m.sin() + 72.0 * (2.0 * m).sin());
    let far = 149.619 - 2.499 * m.cos() - 0.021 * (2.0 * m).cos();
    [angle(282.94, 1.397_2, t) + m + more, 0.0, far * 1e9]
}

/// Returns the same of the moon.
fn moon(t: f64) -> [f64; 3] {
    let mean = angle(218.316_17, 481_267.880_88, t);
    let l = angle(134.962_92, 477_198.867_53, t);
    let m = angle(357.525_43, 35_999.049_44, t);
    let f = angle(93.272_83, 483_202.018_73, t);
    let d = angle(297.850_27, 445_267.111_35, t);
    let more = 22_640.0 * l.sin() + 769.0 * (2.0 * l).sin() - 4_586.0 * (l - 2.0 * d).sin()
        + 2_370.0 * (2.0 * d).sin()
        - 668.0 * m.sin()
        - 412.0 * (2.0 * f).sin()
        - 212.0 * (2.0 * l - 2.0 * d).sin()
        - 206.0 * (l + m - 2.0 * d).sin()
        + 192.0 * (l + 2.0 * d).sin();
    let along = f + arc_seconds(more + 412.0 * (2.0 * f).sin() + 541.0 * m.sin());
    let up = 18_520.0 * along.sin() - 526.0 * (f - 2.0 * d).sin();
    let far = 385_000.0
        - 20_905.0 * l.cos()
        - 3_699.0 * (2.0 * d - l).cos()
        - 2_956.0 * (2.0 * d).cos()
        - 570.0 * (2.0 * l).cos()
        + 246.0 * (2.0 * l - 2.0 * d).cos();
    [mean + arc_seconds(more), arc_seconds(up), far * 1e3]
}

/// Converts ecliptic coordinates, given the earth's rotation since the equinox.
fn earth_fixed([longitude, latitude, far]: [f64; 3], turn: f64) -> [f64; 3] {
    let (se, ce) = 23.439_3_f64.to_radians().sin_cos();
    let ((sl, cl), (sb, cb)) = (longitude.sin_cos(), latitude.sin_cos());
    let [x, y, z] = [cb * cl, cb * sl * ce - sb * se, cb * sl * se + sb * ce];
    let (sin, cos) = turn.sin_cos();
    [x * cos + y * sin, y * cos - x * sin, z].map(|a| a * far)
}

#[cfg(test)]
mod tests {
    use super::*;

    /// Seconds of GPS time.
    fn second(days: f64, hour: f64) -> f64 {
        days * 86_400.0 + hour * 3_600.0
    }

    #[test]
    fn gravity_is_the_slope_of_its_potential() {
        let potential = |place: [f64; 3]| {
            let (v, w) = harmonics(place);
            let terms = FIELD
                .iter()
                .map(|(n, m, c, s)| c * v[*n][*m] + s * w[*n][*m]);
            terms.sum::<f64>() * GRAVITY / RADIUS
        };
        let place = [14_123_456.0, -9_876_543.0, 18_765_432.0];
        let found = earth(place);
        for i in 0..3 {
            let moved = |by: f64| {
                let mut to = place;
                to[i] += by;
                potential(to)
            };
            let slope = (moved(100.0) - moved(-100.0)) / 200.0;
            assert!(
                (found[i] - slope).abs() < 2e-10,
                "{i}: {}",
                found[i] - slope
            );
        }
    }

    #[test]
    fn the_moon_eclipsed_the_sun_on_2017_08_21() {
        let bodies = Bodies::at(second(13_742.0, 18.44));
        let along: f64 = bodies.sun.iter().zip(bodies.moon).map(|(a, b)| a * b).sum();
        let cos = along / length(bodies.sun) / length(bodies.moon);
        assert!(cos.acos().to_degrees() < 0.6, "{}", cos.acos().to_degrees());
    }

    #[test]
    fn the_sun_is_over_the_equator_at_an_equinox() {
        // 2015-03-20, 22:45.
        let [x, y, z] = Bodies::at(second(12_857.0, 22.75)).sun;
        assert!((z / length([x, y, z])).asin().to_degrees().abs() < 0.02);
        let longitude = y.atan2(x).to_degrees();
        assert!(
            (longitude - (12.0 - 22.75) * 15.0).abs() < 4.0,
            "{longitude}"
        );
    }
}
