//! Positions and velocities of satellites from broadcast orbits.

use std::cell::Cell;

/// The speed of light, m/s.
pub const LIGHT: f64 = 299_792_458.0;
/// The earth's rotation rate in IS-GPS-200, rad/s.
pub const TURN: f64 = 7.292_115_146_7e-5;

/// A position in m and a velocity in m/s, earth-centred and earth-fixed.
#[derive(Clone, Copy, Debug, PartialEq)]
pub struct State {
    pub place: [f64; 3],
    pub velocity: [f64; 3],
}

/// The constants of an interface document, and whether the satellite is a geostationary one of
/// BeiDou.
#[derive(Clone, Copy, Debug, PartialEq)]
pub struct Earth {
    gravity: f64,
    turn: f64,
    standing: bool,
}

impl Earth {
    /// The constants of IS-GPS-200, table 20-IV.
    pub const GPS: Self = Self {
        gravity: 3.986_005e14,
        turn: TURN,
        standing: false,
    };
    /// The constants of the Galileo OS SIS ICD.
    pub const GALILEO: Self = Self {
        gravity: 3.986_004_418e14,
        turn: TURN,
        standing: false,
    };
    /// The constants of BDS-SIS-ICD-B1I.
    pub const BEIDOU: Self = Self {
        gravity: 3.986_004_418e14,
        turn: 7.292_115e-5,
        standing: false,
    };
    /// The same for a geostationary satellite.
    pub const BEIDOU_STANDING: Self = Self {
        standing: true,
        ..Self::BEIDOU
    };
}

/// The parameters of a broadcast orbit, in m, rad and s.
#[derive(Clone, Copy, Debug, PartialEq)]
pub struct Kepler {
    pub earth: Earth,
    /// The root of the semi-major axis.
    pub root: f64,
    pub eccentricity: f64,
    pub inclination: f64,
    pub inclination_rate: f64,
    /// The node at the start of the week, and its rate.
    pub node: f64,
    pub node_rate: f64,
    pub perigee: f64,
    /// The mean anomaly at the reference time, and the correction of its rate.
    pub anomaly: f64,
    pub motion: f64,
    /// Cosine and sine corrections to the argument of latitude, the radius and the inclination.
    pub latitude: [f64; 2],
    pub radius: [f64; 2],
    pub tilt: [f64; 2],
    /// The reference time of week, in the system's own time.
    pub second: f64,
}

impl Kepler {
    /// Checks that the parameters fit in the fields of the message and describe the orbit of a
    /// navigation satellite.
    pub fn sound(&self) -> bool {
        let small = |numbers: &[f64], limit: f64| numbers.iter().all(|x| x.abs() <= limit);
        (4_900.0..=6_700.0).contains(&self.root)
            && (0.0..0.25).contains(&self.eccentricity)
            && small(&[self.inclination], 2.0)
            && small(&[self.node, self.perigee, self.anomaly], 6.3)
            && small(&[self.node_rate], 3.1e-6)
            && small(&[self.inclination_rate], 3.0e-9)
            && small(&[self.motion], 1.3e-8)
            && small(&self.latitude, 6.2e-5)
            && small(&self.tilt, 6.2e-5)
            && small(&self.radius, 2_048.0)
            && (0.0..604_800.0).contains(&self.second)
    }

    /// Returns the rate of the mean anomaly, rad/s.
    pub fn rate(&self) -> f64 {
        let axis = self.root * self.root;
        (self.earth.gravity / (axis * axis * axis)).sqrt() + self.motion
    }

    /// Solves Kepler's equation. Returns sine, cosine and rate of the eccentric anomaly.
    fn eccentric(&self, since: f64) -> (f64, f64, f64) {
        let rate = self.rate();
        let (e, mean) = (self.eccentricity, self.anomaly + rate * since);
        let mut angle = mean;
        for _ in 0..30 {
            let (sin, cos) = angle.sin_cos();
            let step = (angle - e * sin - mean) / (1.0 - e * cos);
            angle -= step;
            if step.abs() <= 1e-13 {
                break;
            }
        }
        let (sin, cos) = angle.sin_cos();
        (sin, cos, rate / (1.0 - e * cos))
    }

    /// Returns the state `since` seconds after the reference time, and the relativistic clock
    /// correction in s (IS-GPS-200, table 20-IV and 20.3.3.3.3.1).
    pub fn at(&self, since: f64) -> (State, f64) {
        let (e, axis) = (self.eccentricity, self.root * self.root);
        let (sin, cos, rate) = self.eccentric(since);
        let flat = (1.0 - e * e).sqrt();
        let near = 1.0 - e * cos;
        let argument = (flat * sin).atan2(cos - e) + self.perigee;
        let argument_rate = flat * rate / near;
        let (sin2, cos2) = (2.0 * argument).sin_cos();
        let wave = |[c, s]: [f64; 2]| s * sin2 + c * cos2;
        let wave_rate = |[c, s]: [f64; 2]| 2.0 * argument_rate * (s * cos2 - c * sin2);
        let u = argument + wave(self.latitude);
        let u_rate = argument_rate + wave_rate(self.latitude);
        let r = axis * near + wave(self.radius);
        let r_rate = axis * e * sin * rate + wave_rate(self.radius);
        let i = self.inclination + wave(self.tilt) + self.inclination_rate * since;
        let i_rate = self.inclination_rate + wave_rate(self.tilt);
        let (sin_u, cos_u) = u.sin_cos();
        let plane = [r * cos_u, r * sin_u];
        let plane_rate = [
            r_rate * cos_u - r * u_rate * sin_u,
            r_rate * sin_u + r * u_rate * cos_u,
        ];
        let relativity = -2.0 * (self.earth.gravity * axis).sqrt() * e * sin / (LIGHT * LIGHT);
        let state = self.turned(since, plane, plane_rate, [i, i_rate]);
        (state, relativity)
    }

    /// Rotates from the orbital plane to the earth-fixed frame.
    fn turned(&self, since: f64, [x, y]: [f64; 2], [vx, vy]: [f64; 2], tilt: [f64; 2]) -> State {
        let turn = self.earth.turn;
        let left = if self.earth.standing { 0.0 } else { turn };
        let node_rate = self.node_rate - left;
        let node = self.node + node_rate * since - turn * self.second;
        let ((sin_o, cos_o), (sin_i, cos_i)) = (node.sin_cos(), tilt[0].sin_cos());
        let place = [
            x * cos_o - y * cos_i * sin_o,
            x * sin_o + y * cos_i * cos_o,
            y * sin_i,
        ];
        let across = vy * cos_i - y * sin_i * tilt[1];
        let velocity = [
            vx * cos_o - across * sin_o - node_rate * place[1],
            vx * sin_o + across * cos_o + node_rate * place[0],
            vy * sin_i + y * cos_i * tilt[1],
        ];
        let state = State { place, velocity };
        match self.earth.standing {
            true => standing(state, turn, since),
            false => state,
        }
    }
}

/// Applies the rotations for geostationary satellites: by -5 degrees, then with the earth
/// (BDS-SIS-ICD-B1I, user algorithm for the ephemeris).
fn standing(state: State, turn: f64, since: f64) -> State {
    let (sin5, cos5) = (-5_f64).to_radians().sin_cos();
    let (sin, cos) = (turn * since).sin_cos();
    let turned = |[x, y, z]: [f64; 3]| {
        let (y, z) = (y * cos5 + z * sin5, z * cos5 - y * sin5);
        [x * cos + y * sin, y * cos - x * sin, z]
    };
    let (place, mut velocity) = (turned(state.place), turned(state.velocity));
    velocity[0] += turn * place[1];
    velocity[1] -= turn * place[0];
    State { place, velocity }
}

/// A GLONASS ephemeris: the state at the reference time, and the luni-solar acceleration in m/s².
#[derive(Clone, Debug, PartialEq)]
pub struct Glonass {
    pub start: State,
    pub pull: [f64; 3],
    /// The state after the whole steps of the last call, from which the next one goes on.
    last: Cell<(i32, State)>,
}

/// The longest step of the integration, s.
const STEP: f64 = 60.0;

impl Glonass {
    /// Starts at a state, with an acceleration.
    pub fn new(start: State, pull: [f64; 3]) -> Self {
        let last = Cell::new((0, start));
        Self { start, pull, last }
    }

    /// Checks that the numbers describe a GLONASS orbit.
    pub fn sound(&self) -> bool {
        let length = |[x, y, z]: [f64; 3]| (x * x + y * y + z * z).sqrt();
        (2.0e7..3.1e7).contains(&length(self.start.place))
            && (500.0..6_000.0).contains(&length(self.start.velocity))
            && length(self.pull) < 1e-3
    }

    /// Returns the state `since` seconds after the reference time, by numerical integration
    /// (GLONASS ICD, A.3.1.2).
    pub fn at(&self, since: f64) -> State {
        let steps = (since / STEP) as i32;
        let (mut done, mut state) = self.last.get();
        if done.signum() * steps.signum() < 0 || done.abs() > steps.abs() {
            (done, state) = (0, self.start);
        }
        for _ in done.abs()..steps.abs() {
            state = self.stepped(state, STEP.copysign(since));
        }
        self.last.set((steps, state));
        self.stepped(state, since - STEP * f64::from(steps))
    }

    /// Makes one step of the fourth-order Runge-Kutta method.
    pub fn stepped(&self, from: State, step: f64) -> State {
        let moved = |by: &State, part: f64| State {
            place: sum(from.place, by.place, part),
            velocity: sum(from.velocity, by.velocity, part),
        };
        let a = self.change(&from);
        let b = self.change(&moved(&a, step / 2.0));
        let c = self.change(&moved(&b, step / 2.0));
        let d = self.change(&moved(&c, step));
        let mut to = from;
        for (change, part) in [(a, 1.0), (b, 2.0), (c, 2.0), (d, 1.0)] {
            to.place = sum(to.place, change.place, part * step / 6.0);
            to.velocity = sum(to.velocity, change.velocity, part * step / 6.0);
        }
        to
    }

    /// Returns the derivative of a state: its velocity and acceleration.
    fn change(&self, state: &State) -> State {
        const GRAVITY: f64 = 3.986_004_4e14;
        const RADIUS: f64 = 6_378_136.0;
        const OBLATE: f64 = 1.082_625_7e-3;
        const TURN: f64 = 7.292_115e-5;
        let ([x, y, z], [vx, vy, vz]) = (state.place, state.velocity);
        let r2 = x * x + y * y + z * z;
        let r3 = r2 * r2.sqrt();
        let a = 1.5 * OBLATE * GRAVITY * RADIUS * RADIUS / r2 / r3;
        let c = -GRAVITY / r3 - a * (1.0 - 5.0 * z * z / r2);
        let [px, py, pz] = self.pull;
        State {
            place: [vx, vy, vz],
            velocity: [
                (c + TURN * TURN) * x + 2.0 * TURN * vy + px,
                (c + TURN * TURN) * y - 2.0 * TURN * vx + py,
                (c - 2.0 * a) * z + pz,
            ],
        }
    }
}

fn sum([x, y, z]: [f64; 3], [a, b, c]: [f64; 3], part: f64) -> [f64; 3] {
    [x + a * part, y + b * part, z + c * part]
}

#[cfg(test)]
mod tests {
    use super::*;

    /// A circular equatorial orbit.
    fn circle(earth: Earth, root: f64) -> Kepler {
        Kepler {
            earth,
            root,
            eccentricity: 0.0,
            inclination: 0.0,
            inclination_rate: 0.0,
            node: 0.0,
            node_rate: 0.0,
            perigee: 0.0,
            anomaly: 0.0,
            motion: 0.0,
            latitude: [0.0; 2],
            radius: [0.0; 2],
            tilt: [0.0; 2],
            second: 0.0,
        }
    }

    fn length([x, y, z]: [f64; 3]) -> f64 {
        (x * x + y * y + z * z).sqrt()
    }

    #[test]
    fn a_circle_is_gone_round_as_kepler_says() {
        let orbit = circle(Earth::GPS, 5_153.6);
        let axis = 5_153.6_f64.powi(2);
        let period = 2.0 * std::f64::consts::PI * (axis.powi(3) / 3.986_005e14).sqrt();
        let (start, relativity) = orbit.at(0.0);
        assert_eq!((start.place, relativity), ([axis, 0.0, 0.0], 0.0));
        let (round, _) = orbit.at(period);
        // In one period the earth rotates under the satellite.
        let (sin, cos) = (TURN * period).sin_cos();
        assert!((round.place[0] - axis * cos).abs() < 1e-3);
        assert!((round.place[1] + axis * sin).abs() < 1e-3);
        let speed = length(orbit.at(0.0).0.velocity) + TURN * axis;
        assert!((speed - (3.986_005e14 / axis).sqrt()).abs() < 1e-6);
    }

    #[test]
    fn a_standing_satellite_stands() {
        let axis = (3.986_004_418e14_f64 / 7.292_115e-5_f64.powi(2)).cbrt();
        let orbit = Kepler {
            // The rotation by -5 degrees makes this orbit equatorial.
            inclination: -5_f64.to_radians(),
            ..circle(Earth::BEIDOU_STANDING, axis.sqrt())
        };
        let (start, later) = (orbit.at(0.0).0, orbit.at(7_200.0).0);
        let moved: [f64; 3] = [0, 1, 2].map(|i| later.place[i] - start.place[i]);
        assert!(
            length(moved) < 0.1 && later.place[2].abs() < 1e-3,
            "{moved:?}"
        );
        assert!(length(later.velocity) < 1e-3, "{:?}", later.velocity);
    }

    #[test]
    fn glonass_steps_back_and_forth() {
        let start = State {
            place: [7_003_008.789, -12_206_626.953, 21_280_765.625],
            velocity: [783.541_7, 2_804.253, 1_352.515],
        };
        let orbit = Glonass::new(start, [0.0, 1.7e-6, -5.41e-6]);
        assert!(orbit.sound());
        assert_eq!(orbit.at(0.0), start);
        let there = orbit.at(847.3);
        let back = Glonass::new(there, orbit.pull);
        let again = back.at(-847.3);
        for i in 0..3 {
            assert!((again.place[i] - start.place[i]).abs() < 1e-4);
        }
        // In whatever order it is asked.
        let new = Glonass::new(start, orbit.pull);
        for since in [-1.0, 61.0, 600.0, 30.0, -600.0, 0.0, 847.3, -59.0, 780.0] {
            let alone = Glonass::new(start, orbit.pull);
            assert_eq!(new.at(since), alone.at(since), "{since}");
        }
        // The velocity is the derivative of the position.
        let (before, after) = (orbit.at(599.5), orbit.at(600.5));
        for i in 0..3 {
            let gap = after.place[i] - before.place[i] - orbit.at(600.0).velocity[i];
            assert!(gap.abs() < 1e-4, "{gap}");
        }
    }

    #[test]
    fn numbers_that_no_message_holds_are_told() {
        let good = circle(Earth::GPS, 5_153.6);
        assert!(good.sound());
        let bad = [
            Kepler {
                root: 515.36,
                ..good
            },
            Kepler {
                eccentricity: 1.0,
                ..good
            },
            Kepler { node: 63.0, ..good },
            Kepler {
                motion: 4e-8,
                ..good
            },
            Kepler {
                tilt: [0.0, 1e-3],
                ..good
            },
            Kepler {
                second: 604_800.0,
                ..good
            },
            Kepler {
                anomaly: f64::NAN,
                ..good
            },
        ];
        assert!(bad.iter().all(|k| !k.sound()));
    }
}
