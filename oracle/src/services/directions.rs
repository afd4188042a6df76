//! North, east, down against a plain model of docs/SCOPE.md, "North, east, down", bit by bit; and beside
//! frames.rs with the platform's sine, cosine and arctangent, where the gap is printed.

use super::Service;
use crate::random::{exp2, pattern, Random};
use crate::sky;
use crate::tally::{hex, Tally};
use crate::vectors::{of_each, raw, Vectors};
use crate::{bench, ffi};
use drifters_core::frames::Ecef;
use drifters_core::math::Vec3;
use std::hint::black_box;

pub const SERVICE: Service = Service {
    name: "directions",
    count: 2_000_000,
    compare,
    bench: Some(time),
};

/// earth.rs: the semi-major axis, the flattening, the semi-minor axis and the two eccentricities squared.
const A: f64 = 6_378_137.0;
const F: f64 = 1.0 / 298.257_223_563;
const B: f64 = A * (1.0 - F);
const E2: f64 = F * (2.0 - F);
const EP2: f64 = E2 / (1.0 - E2);

/// So near to the axis the longitude is 0.
const AXIS: f64 = 1e-9;

/// Whether every coordinate is finite and at most 1e9 in magnitude.
fn in_range(v: &[f64; 3]) -> bool {
    v.iter().all(|x| x.abs() <= 1e9)
}

/// Sine and cosine of the angle that leads along c and s.
fn over(s: f64, c: f64) -> [f64; 2] {
    let root = (s * s + c * c).sqrt();
    [s / root, c / root]
}

/// Sine and cosine, east-west and of the latitude.
fn angles([x, y, z]: [f64; 3]) -> [[f64; 2]; 2] {
    let p = (x * x + y * y).sqrt();
    if p < AXIS {
        return [[0.0, 1.0], [if z >= 0.0 { 1.0 } else { -1.0 }, 0.0]];
    }
    let [s, c] = over(z * A, p * B);
    let numerator = z + (EP2 * B) * ((s * s) * s);
    let denominator = p - (E2 * A) * ((c * c) * c);
    [[y / p, x / p], over(numerator, denominator)]
}

/// The rows of the transposed `dcm_ecef_from_ned`.
fn rows([[sin_lon, cos_lon], [sin_lat, cos_lat]]: [[f64; 2]; 2]) -> [[f64; 3]; 3] {
    [
        [-sin_lat * cos_lon, -sin_lat * sin_lon, cos_lat],
        [-sin_lon, cos_lon, 0.0],
        [-cos_lat * cos_lon, -cos_lat * sin_lon, -sin_lat],
    ]
}

/// North, east and down, or 19.
pub fn model(position: &[f64; 3], v: &[f64; 3]) -> Result<[f64; 3], u8> {
    if !in_range(position) || !in_range(v) {
        return Err(19);
    }
    let ned = rows(angles(*position)).map(|r| r[0] * v[0] + r[1] * v[1] + r[2] * v[2]);
    let finite = ned.iter().all(|x| x.is_finite());
    finite.then_some(ned).ok_or(19)
}

/// The same by frames.rs.
fn by_frames([x, y, z]: &[f64; 3], v: &[f64; 3]) -> [f64; 3] {
    let turn = Ecef::new(*x, *y, *z).to_lla().dcm_ecef_from_ned();
    let ned = turn.transpose() * Vec3::new(v[0], v[1], v[2]);
    [ned.x, ned.y, ned.z]
}

/// A place on the earth or up to 20 km above or below.
fn near_surface(random: &mut Random) -> [f64; 3] {
    let d = sky::direction(random);
    let r = 6_367_000.0 + random.unit() * 20_000.0;
    d.map(|x| x * r)
}

/// A place as far from the axis as the limit, or next to it.
fn next_to_axis(random: &mut Random) -> [f64; 3] {
    let turn = random.unit() * std::f64::consts::PI;
    let p = match random.below(3) {
        0 => AXIS * (1.0 + random.unit() * exp2(-random.between(1, 52))),
        1 => AXIS * exp2(random.between(-3, 3)),
        _ => f64::from_bits(
            AXIS.to_bits()
                .wrapping_add_signed(random.between(-3, 3).into()),
        ),
    };
    let far = random.unit() * 7e6;
    let z = random.pick(&[0.0, -0.0, B, -B, 1e9, -1e9, 5e-324, -5e-324, far]);
    match random.below(4) {
        0 => [p, 0.0, z],
        1 => [-0.0, -p, z],
        _ => [p * turn.cos(), p * turn.sin(), z],
    }
}

/// A place on the circle on which there is no latitude, or next to it.
fn on_the_circle(random: &mut Random) -> [f64; 3] {
    let p = E2 * A;
    let near = random.unit() * 1e-9;
    let z = random.pick(&[0.0, -0.0, 0.0, 5e-324, -1e-300, near]);
    let turn = random.unit() * std::f64::consts::PI;
    match random.below(5) {
        0 => [p, 0.0, z],
        1 => [-p, -0.0, z],
        2 => [0.0, random.pick(&[p, -p]), z],
        3 => [
            f64::from_bits(
                p.to_bits()
                    .wrapping_add_signed(random.between(-2, 2).into()),
            ),
            0.0,
            z,
        ],
        _ => [p * turn.cos(), p * turn.sin(), z],
    }
}

/// A coordinate at an edge.
fn edge(random: &mut Random) -> f64 {
    let next = 1e9f64.next_up();
    random.pick(&[
        0.0,
        -0.0,
        1e9,
        -1e9,
        next,
        -next,
        5e-324,
        -5e-324,
        1e-9,
        -1e-9,
        1e-160,
        1e-155,
        A,
        -A,
        B,
        -B,
        f64::MIN_POSITIVE,
        f64::NAN,
        f64::INFINITY,
        f64::NEG_INFINITY,
    ])
}

fn three(random: &mut Random, f: fn(&mut Random) -> f64) -> [f64; 3] {
    std::array::from_fn(|_| f(random))
}

fn place(random: &mut Random) -> [f64; 3] {
    let mut at = match random.below(10) {
        0 => next_to_axis(random),
        1 => on_the_circle(random),
        2 => three(random, edge),
        3 => three(random, |r| r.unit() * 1e9),
        4 => three(random, |r| r.unit() * exp2(r.between(-1074, 30))),
        5 => three(random, Random::float),
        _ => near_surface(random),
    };
    if random.below(20) == 0 {
        at[random.place(3)] = edge(random);
    }
    at
}

fn displacement(random: &mut Random) -> [f64; 3] {
    let mut v = match random.below(8) {
        0 => three(random, edge),
        1 => three(random, Random::float),
        2 => three(random, |r| r.unit() * exp2(r.between(-1074, 30))),
        _ => three(random, |r| r.unit() * 577.0),
    };
    if random.below(20) == 0 {
        v[random.place(3)] = edge(random);
    }
    v
}

/// The largest distance seen, in millimetres.
#[derive(Default)]
struct Gap {
    largest: f64,
    cases: u64,
}

impl Gap {
    fn see(&mut self, a: &[f64; 3], b: &[f64; 3]) {
        let square: f64 = a.iter().zip(b).map(|(x, y)| (x - y) * (x - y)).sum();
        self.cases += 1;
        self.largest = self.largest.max(square.sqrt() * 1e3);
    }
}

/// What is compared with frames.rs: places near the surface, places on the axis, displacements up to 1,000 m.
fn beside(random: &mut Random, surface: &mut Gap, axis: &mut Gap) {
    let length = random.unit().abs() * 1e3;
    let v = sky::direction(random).map(|x| x * length);
    let mut ned = [0.0; 3];
    let on_axis = random.below(4) == 0;
    let at = if on_axis {
        let turn = random.unit() * std::f64::consts::PI;
        let p = random.unit().abs() * AXIS;
        let z = random.pick(&[B, -B]) + random.unit() * 2e4;
        [p * turn.cos(), p * turn.sin(), z]
    } else {
        near_surface(random)
    };
    if ffi::north_east_down(&at, &v, &mut ned) == 0 {
        let gap = if on_axis { axis } else { surface };
        gap.see(&ned, &by_frames(&at, &v));
    }
}

/// Judges one case, and tells whether it was answered.
fn judge(tally: &mut Tally, random: &mut Random, at: &[f64; 3], v: &[f64; 3]) -> bool {
    let before = three(random, |r| f64::from_bits(r.bits()));
    let mut ours = before;
    let number = ffi::north_east_down(at, v, &mut ours);
    let theirs = model(at, v);
    let same = match theirs {
        Ok(ned) => number == 0 && ned.map(f64::to_bits) == ours.map(f64::to_bits),
        Err(refusal) => number == refusal && before.map(f64::to_bits) == ours.map(f64::to_bits),
    };
    tally.judge(same, || {
        format!(
            "at {} by {}: our number {number}, {}, the model's {theirs:?}",
            hex(raw(at)),
            hex(raw(v)),
            hex(ours.map(pattern))
        )
    });
    theirs.is_ok()
}

fn compare(tally: &mut Tally, random: &mut Random, count: u64) {
    let (mut answered, mut not_finite) = (0u64, 0u64);
    let (mut surface, mut axis) = (Gap::default(), Gap::default());
    // Every pair of edges first.
    let corner = [
        [A, 0.0, 0.0],
        [0.0, 0.0, B],
        [0.0, 0.0, -B],
        [0.0; 3],
        [E2 * A, 0.0, 0.0],
        [1e9; 3],
    ];
    for at in &corner {
        for v in [
            [0.0; 3],
            [-0.0; 3],
            [1.0, 2.0, 3.0],
            [1e9; 3],
            [-1e9; 3],
            [f64::NAN, 0.0, 0.0],
        ] {
            judge(tally, random, at, &v);
        }
    }
    for _ in 0..count {
        let (at, v) = (place(random), displacement(random));
        let given = judge(tally, random, &at, &v);
        answered += u64::from(given);
        not_finite += u64::from(!given && in_range(&at) && in_range(&v));
        beside(random, &mut surface, &mut axis);
    }
    tally.note(format!(
        "{answered} answered, {not_finite} refused since the result is not finite; largest gap to frames.rs with displacements up to 1,000 m: {:.3e} mm in {} cases near the surface, {:.3e} mm in {} on the axis, where frames.rs keeps a longitude",
        surface.largest, surface.cases, axis.largest, axis.cases
    ));
}

fn time(random: &mut Random) {
    let cases: Vec<_> = (0..512)
        .map(|_| (near_surface(random), three(random, |r| r.unit() * 50.0)))
        .collect();
    bench::row(
        "directions, Rust by angles",
        1,
        cases.len(),
        || {
            let mut ned = [0.0; 3];
            for (at, v) in &cases {
                black_box(ffi::north_east_down(black_box(at), v, &mut ned));
                black_box(&ned);
            }
        },
        || {
            for (at, v) in &cases {
                black_box(by_frames(black_box(at), v));
            }
        },
    );
}

/// Place 3, displacement 3, number, north, east, down.
pub fn vectors(random: &mut Random) -> Vectors {
    let wanted = [(0, 40), (19, 12)];
    let next = || {
        let (at, v) = (place(random), displacement(random));
        let answer = model(&at, &v);
        let number = *answer.as_ref().err().unwrap_or(&0);
        let given = raw(&at).chain(raw(&v)).collect();
        let mut stored = vec![u64::from(number)];
        stored.extend(raw(&answer.unwrap_or([0.0; 3])));
        Some((number, (given, stored)))
    };
    Vectors::of(of_each(&wanted, next))
}

#[cfg(test)]
mod tests {
    use super::*;

    #[test]
    fn the_model_knows_its_directions() {
        let at = |position: [f64; 3]| model(&position, &[1.0, 2.0, 3.0]);
        assert_eq!(at([A, 0.0, 0.0]), Ok([3.0, 2.0, -1.0]));
        assert_eq!(at([0.0, A, 0.0]), Ok([3.0, -1.0, -2.0]));
        assert_eq!(at([0.0, 0.0, B]), Ok([-1.0, 2.0, -3.0]));
        assert_eq!(at([0.0, 0.0, -B]), Ok([1.0, 2.0, 3.0]));
        assert_eq!(at([0.0, 0.0, -0.0]), at([0.0, 0.0, B]));
        assert_eq!(at([E2 * A, 0.0, 0.0]), Err(19));
        assert_eq!(at([1e9f64.next_up(), 0.0, 0.0]), Err(19));
    }

    #[test]
    fn frames_keeps_a_longitude_on_the_axis() {
        let (at, v) = ([0.0, 5e-10, B], [1.0, 0.0, 0.0]);
        let by = by_frames(&at, &v);
        assert_eq!(model(&at, &v), Ok([-1.0, 0.0, 0.0]));
        assert!((by[1] + 1.0).abs() < 1e-9);
    }
}
