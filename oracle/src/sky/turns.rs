//! What is done to an input of either estimator: the edges of the rules, odd floats, one field replaced.

use super::Plan;
use crate::random::{exp2, Random};
use crate::rules;

/// The floats of one record.
pub struct Floats<'a> {
    /// What was measured.
    pub measured: Vec<&'a mut f64>,
    pub satellite: &'a mut [f64; 3],
    pub elevation: &'a mut f64,
}

impl<'a> Floats<'a> {
    /// One of them.
    fn one(self, random: &mut Random) -> &'a mut f64 {
        let mut all = self.measured;
        all.extend(self.satellite);
        all.push(self.elevation);
        let place = random.place(all.len());
        all.swap_remove(place)
    }
}

/// What stands beside the records.
pub struct Beside<'a> {
    /// The receiver, or the guess.
    pub place: &'a mut [f64; 3],
    pub sigma_a: &'a mut f64,
    pub sigma_b: &'a mut f64,
    pub huber: &'a mut f64,
    pub mask: &'a mut f64,
    pub rounds: &'a mut usize,
    /// What the other estimator does not have.
    pub more: Vec<&'a mut f64>,
}

impl<'a> Beside<'a> {
    /// One of the floats.
    fn one(self, random: &mut Random) -> &'a mut f64 {
        let mut all = self.more;
        all.extend(self.place);
        all.extend([self.sigma_a, self.sigma_b, self.huber, self.mask]);
        let place = random.place(all.len());
        all.swap_remove(place)
    }
}

/// An input of an estimator.
pub trait Input: Sized {
    /// How many edges are its own.
    const EDGES: u64;
    /// From a true place or displacement under a sky, with noise and outliers.
    fn under(random: &mut Random, plan: &Plan) -> Self;
    /// Under a sky of so many satellites, each of which counts, with the default settings and no mask.
    fn clean(random: &mut Random, count: usize) -> Self;
    /// The floats of each record, those last whose elevation is held to the mask.
    fn records(&mut self) -> Vec<Floats<'_>>;
    /// What stands beside them.
    fn beside(&mut self) -> Beside<'_>;
    /// Brings it to one of its own edges.
    fn own_edge(&mut self, random: &mut Random, which: u64);
    /// Lets odd floats through a screen, most of the time.
    fn open_screen(&mut self, _: &mut Random) {}
}

/// How many edges both have.
const SHARED: u64 = 7;

/// One record.
fn one<'a>(random: &mut Random, input: &'a mut impl Input) -> Option<Floats<'a>> {
    let mut records = input.records();
    let count = records.len();
    (count > 0).then(|| records.swap_remove(random.place(count)))
}

/// A float next to x: x itself, or up to three patterns off.
pub fn next_to(random: &mut Random, x: f64) -> f64 {
    let by = random.pick(&[-3, -1, 0, 0, 0, 1, 2]);
    f64::from_bits(x.to_bits().wrapping_add_signed(by))
}

/// A float of either sign whose magnitude is next to x.
fn about(random: &mut Random, x: f64) -> f64 {
    random.unit().signum() * next_to(random, x)
}

/// A float that the limits let pass, of any class and size.
fn within(random: &mut Random) -> f64 {
    loop {
        let x = random.float();
        if x.abs() <= rules::LIMIT {
            return x;
        }
    }
}

/// In place of x: a float that the limits let pass, any float, or x within the limits.
fn turned(random: &mut Random, kind: u64, x: f64) -> f64 {
    match kind {
        0 => within(random),
        1 => random.float(),
        _ => x.clamp(-rules::LIMIT, rules::LIMIT),
    }
}

/// A setting at an edge: zeros, signs, the limit, what is not finite.
fn setting(random: &mut Random) -> f64 {
    match random.below(4) {
        0 => random.pick(&[0.0, -0.0, -1.0, 1.0, 1e-9, 5e-324, 1e-200, 50.0, 1e5]),
        1 => about(random, rules::LIMIT),
        2 => random.unit() * exp2(random.between(-600, 29)),
        _ => random.float(),
    }
}

/// A count of rounds at an edge.
fn rounds(random: &mut Random) -> usize {
    match random.below(4) {
        0 => 0,
        1 => random.pick(&[1, 2, 49, 50]),
        2 => random.pick(&[51, 52, 1 << 32, usize::MAX]),
        _ => random.place(rules::ROUNDS + 1),
    }
}

/// Brings an input to an edge of a rule.
fn edge<I: Input>(random: &mut Random, input: &mut I) {
    match random.below(SHARED + I::EDGES) {
        // An elevation next to the mask.
        0 | 1 => {
            let last = input.records().pop().map(|r| *r.elevation);
            if let Some(elevation) = last {
                *input.beside().mask = next_to(random, elevation);
            }
        }
        2 => *input.beside().rounds = rounds(random),
        3 => *input.beside().one(random) = setting(random),
        4 => {
            let x = about(random, 90.0);
            if let Some(r) = one(random, input) {
                *r.elevation = x;
            }
        }
        // A float of a record next to the limit.
        5 => {
            let x = about(random, rules::LIMIT);
            if let Some(r) = one(random, input) {
                *r.one(random) = x;
            }
        }
        // A receiver at a satellite, or at the earth's centre.
        6 => {
            let satellite = one(random, input).map(|r| *r.satellite);
            *input.beside().place = match satellite {
                Some(at) if random.below(2) == 0 => at,
                _ => [0.0; 3],
            };
        }
        which => input.own_edge(random, which - SHARED),
    }
}

/// Replaces one field by an odd value.
fn damage(random: &mut Random, input: &mut impl Input) {
    let x = if random.below(3) == 0 {
        random.float()
    } else {
        within(random)
    };
    if random.below(3) == 0 {
        *input.beside().one(random) = x;
    } else if let Some(r) = one(random, input) {
        *r.one(random) = x;
    }
}

/// Floats of any size in all places, or of one power of two in some columns.
fn odd(random: &mut Random, input: &mut impl Input) {
    let kind = random.below(4);
    let scale = exp2(random.between(-60, 12));
    for r in input.records() {
        for x in r.measured.into_iter().chain(r.satellite) {
            *x = turned(random, kind, *x * scale);
        }
        if kind < 2 {
            *r.elevation = 90.0 * random.unit();
        }
    }
    if kind == 3 {
        for x in input.beside().place {
            *x = turned(random, kind, *x * scale);
        }
    }
    input.open_screen(random);
}

/// A sky that is nearly flat: all heights are next to nothing, so that their squares may underflow.
fn flatten(random: &mut Random, input: &mut impl Input) {
    let by = exp2(random.between(-590, -20));
    for r in input.records() {
        r.satellite[2] *= by;
    }
    let beside = input.beside();
    beside.place[2] *= by;
    *beside.rounds = random.pick(&[1, 1, 2, 4, 25]);
    if random.below(2) == 0 {
        *beside.sigma_a = exp2(random.between(-500, 20));
        *beside.sigma_b = 0.0;
    }
    input.open_screen(random);
}

/// An input of any kind.
pub fn input<I: Input>(random: &mut Random) -> I {
    let kind = random.below(32);
    let plan = match kind {
        0..=11 => Plan::usual(random),
        12..=15 => Plan::narrow(random),
        16..=18 => Plan::scarce(random),
        _ if random.below(4) == 0 => Plan::scarce(random),
        _ => Plan::usual(random),
    };
    let mut out = I::under(random, &plan);
    match kind {
        0..=18 => {}
        19..=26 => {
            edge(random, &mut out);
            if random.below(4) == 0 {
                edge(random, &mut out);
            }
        }
        27..=29 => damage(random, &mut out),
        30 => flatten(random, &mut out),
        _ => odd(random, &mut out),
    }
    out
}
