//! Receivers on the earth and satellites in their view, as both estimators' inputs begin.

mod displacement;
mod fix;
pub mod top;
mod turns;

pub use turns::input;
pub use turns::Input;

use crate::random::{exp2, Random};

/// A random direction.
pub fn direction(random: &mut Random) -> [f64; 3] {
    loop {
        let v = [random.unit(), random.unit(), random.unit()];
        let square = v[0] * v[0] + v[1] * v[1] + v[2] * v[2];
        if (0.01..=1.0).contains(&square) {
            return v.map(|x| x / square.sqrt());
        }
    }
}

/// A direction that lies off an axis by about `spread`; any where that is 1.
pub fn near(random: &mut Random, axis: [f64; 3], spread: f64) -> [f64; 3] {
    let d = direction(random);
    if spread >= 1.0 {
        return d;
    }
    let v: [f64; 3] = std::array::from_fn(|i| axis[i] + spread * d[i]);
    let length = (v[0] * v[0] + v[1] * v[1] + v[2] * v[2]).sqrt();
    v.map(|x| x / length)
}

/// a + t·d.
fn along(a: [f64; 3], t: f64, d: [f64; 3]) -> [f64; 3] {
    std::array::from_fn(|i| a[i] + t * d[i])
}

/// A place on the earth.
#[derive(Clone, Copy, Debug)]
pub struct Place {
    /// Coordinates in metres.
    pub at: [f64; 3],
    up: [f64; 3],
}

impl Place {
    /// Any place.
    pub fn random(random: &mut Random) -> Self {
        let up = direction(random);
        let radius = 6.37e6 + 1.5e4 * random.unit();
        Self {
            at: up.map(|x| x * radius),
            up,
        }
    }

    /// A satellite in a direction, 20,000 to 26,000 km away, and its elevation in degrees.
    fn towards(&self, random: &mut Random, d: [f64; 3]) -> ([f64; 3], f64) {
        let range = 2.3e7 + 3e6 * random.unit();
        let sine = d[0] * self.up[0] + d[1] * self.up[1] + d[2] * self.up[2];
        let elevation = sine.clamp(-1.0, 1.0).asin().to_degrees();
        (along(self.at, range, d), elevation)
    }

    /// A direction above the horizon.
    fn above(&self, random: &mut Random) -> [f64; 3] {
        let d = direction(random);
        let sine = d[0] * self.up[0] + d[1] * self.up[1] + d[2] * self.up[2];
        if sine < 0.0 {
            d.map(|x| -x)
        } else {
            d
        }
    }

    /// A satellite in view and its elevation.
    pub fn satellite(&self, random: &mut Random) -> ([f64; 3], f64) {
        let d = self.above(random);
        self.towards(random, d)
    }
}

/// What a sky is made of.
pub struct Plan {
    /// How many satellites.
    count: usize,
    /// Their constellations, each of which has one satellite before any has two.
    constellations: Vec<u8>,
    /// How far apart their directions lie: 1 for all over the sky.
    spread: f64,
    /// Without slips, outliers and unusable carriers.
    clean: bool,
}

impl Plan {
    /// A usual sky of so many satellites, each of which counts.
    fn clean(random: &mut Random, count: usize) -> Self {
        Self {
            count,
            clean: true,
            ..Self::usual(random)
        }
    }

    /// A usual sky.
    fn usual(random: &mut Random) -> Self {
        let slots = 1 + random.place(4);
        let count = match random.below(4) {
            0 => 7 + slots + random.place(8),
            1 => 10 + random.place(10),
            2 => 12 + random.place(30),
            _ => 12 + random.place(52),
        };
        Self {
            count,
            constellations: constellations(random, slots),
            spread: 1.0,
            clean: false,
        }
    }

    /// Satellites that lie nearly on one line of sight.
    fn narrow(random: &mut Random) -> Self {
        Self {
            spread: exp2(random.between(-36, -1)),
            clean: random.below(2) == 0,
            ..Self::usual(random)
        }
    }

    /// About as many satellites as 7, 8 and 9 ask for.
    fn scarce(random: &mut Random) -> Self {
        let slots = 1 + random.place(8);
        Self {
            count: (4 + slots).saturating_add_signed(random.between(-2, 2) as isize),
            constellations: constellations(random, slots),
            spread: 1.0,
            clean: random.below(4) != 0,
        }
    }

    /// The constellation of a satellite.
    fn constellation(&self, random: &mut Random, k: usize) -> u8 {
        match self.constellations.get(k) {
            Some(&c) => c,
            None => random.pick(&self.constellations),
        }
    }

    /// The satellites of a place, with their elevations and constellations.
    fn satellites(&self, random: &mut Random, place: &Place) -> Vec<([f64; 3], f64, u8)> {
        let axis = place.above(random);
        (0..self.count)
            .map(|k| {
                let d = if self.spread >= 1.0 {
                    place.above(random)
                } else {
                    near(random, axis, self.spread)
                };
                let (satellite, elevation) = place.towards(random, d);
                (satellite, elevation, self.constellation(random, k))
            })
            .collect()
    }
}

/// Constellations of so many slots; those from 7 on share one.
fn constellations(random: &mut Random, slots: usize) -> Vec<u8> {
    let mut all: [u8; 8] = [1, 6, 5, 3, 4, 2, 0, 7];
    if random.below(2) == 0 {
        for k in 0..8 {
            all.swap(k, k + random.place(8 - k));
        }
    }
    let mut out = all[..slots].to_vec();
    if out.contains(&7) {
        // Another of the same slot.
        out.push(random.pick(&[7, 8, 9, 100, 255]));
    }
    out
}
