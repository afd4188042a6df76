//! The track against the published `smooth`: number, result and work, bit by bit.

use super::Service;
use crate::random::{exp2, Random};
use crate::tally::{hex, Tally};
use crate::vectors::{of_each, raw, Vectors};
use crate::{bench, ffi};
use drifters_core::math::Vec3;
use drifters_gnss::smooth::{smooth, Anchor, Link, Settings};
use std::hint::black_box;

pub const SERVICE: Service = Service {
    name: "track",
    count: 200_000,
    compare,
    bench: Some(time),
};

/// The most epochs, anchors and links of a call.
const MOST: usize = 1024;

/// The columns of anchors, or of links, and how many are counted.
#[derive(Default, Clone)]
pub struct Columns {
    pub count: usize,
    pub index: Vec<usize>,
    pub value: Vec<f64>,
    pub sigma: Vec<f64>,
}

impl Columns {
    pub fn push(&mut self, index: usize, value: [f64; 3], sigma: [f64; 3]) {
        self.count += 1;
        self.index.push(index);
        self.value.extend(value);
        self.sigma.extend(sigma);
    }

    /// Whether the columns are as long as the count needs.
    fn long(&self) -> bool {
        let n = self.count;
        n <= self.index.len() && n * 3 <= self.value.len() && n * 3 <= self.sigma.len()
    }

    /// The counted floats.
    fn floats(&self) -> impl Iterator<Item = f64> + '_ {
        let n = self.count * 3;
        self.value[..n].iter().chain(&self.sigma[..n]).copied()
    }

    fn at(&self, j: usize) -> (usize, Vec3, Vec3) {
        let v = |c: &[f64]| Vec3::new(c[j * 3], c[j * 3 + 1], c[j * 3 + 2]);
        (self.index[j], v(&self.value), v(&self.sigma))
    }
}

/// A call's input.
#[derive(Default, Clone)]
pub struct Input {
    pub n: usize,
    pub anchors: Columns,
    pub links: Columns,
    pub huber: f64,
    pub iterations: usize,
}

impl Input {
    /// The floats of work that the call needs.
    pub fn need(&self) -> usize {
        9 * self.n + self.anchors.count + self.links.count
    }

    fn rust(&self) -> (Vec<Anchor>, Vec<Link>, Settings) {
        let anchors = (0..self.anchors.count).map(|j| {
            let (index, position, sigma) = self.anchors.at(j);
            Anchor {
                index,
                position,
                sigma,
            }
        });
        let links = (0..self.links.count).map(|j| {
            let (index, delta, sigma) = self.links.at(j);
            Link {
                index,
                delta,
                sigma,
            }
        });
        let settings = Settings {
            huber: self.huber,
            iterations: self.iterations,
        };
        (anchors.collect(), links.collect(), settings)
    }
}

fn in_range(x: f64) -> bool {
    x.abs() <= 1e9
}

/// The number where the call turns back before the fit, and else what the Rust gives.
pub fn reference(input: &Input, result: usize, work: usize) -> Result<Vec<Vec3>, u8> {
    let (n, a, l) = (input.n, &input.anchors, &input.links);
    if n > MOST || a.count > MOST || l.count > MOST || !a.long() || !l.long() {
        return Err(2);
    }
    if result < 3 * n || work < input.need() {
        return Err(2);
    }
    if !in_range(input.huber) || input.iterations > 50 {
        return Err(3);
    }
    if !a.floats().chain(l.floats()).all(in_range) {
        return Err(4);
    }
    let sigmas = [&a.sigma[..a.count * 3], &l.sigma[..l.count * 3]];
    if n == 0
        || a.count == 0
        || sigmas.concat().iter().any(|&s| s <= 0.0)
        || a.index[..a.count].iter().any(|&i| i >= n)
        || l.index[..l.count].iter().any(|&i| i >= n - 1)
    {
        return Err(6);
    }
    let (anchors, links, settings) = input.rust();
    smooth(n, &anchors, &links, &settings).ok_or(10)
}

/// How large the values and sigmas of an input are.
#[derive(Clone, Copy)]
enum Size {
    Ordinary,
    Huge,
    Whole,
    Subnormal,
    Mixed,
}

fn value(random: &mut Random, size: Size) -> f64 {
    match size {
        Size::Ordinary => random.unit() * 5.0,
        Size::Huge => random.unit() * 1e9,
        Size::Whole => random.below(5) as f64,
        Size::Subnormal => random.unit() * 1e-300,
        Size::Mixed => random.unit() * exp2(random.between(-20, 29)),
    }
}

fn sigma(random: &mut Random, size: Size) -> f64 {
    match size {
        Size::Ordinary => 1.1 + random.unit(),
        Size::Huge => 1.0,
        Size::Whole => match random.below(40) {
            0 => 1e-160,
            1 => 1e9,
            _ => 1.0 + random.below(3) as f64,
        },
        Size::Subnormal => match random.below(3) {
            0 => 1e-155,
            1 => f64::from_bits(1 + random.subnormal()),
            _ => 1e-150 * (2.0 + random.unit()),
        },
        Size::Mixed => match random.below(20) {
            0 => f64::from_bits(1),
            1 => exp2(random.between(-500, 29)),
            _ => 3.01 + random.unit() * 3.0,
        },
    }
}

pub fn three(f: impl Fn(&mut Random) -> f64, random: &mut Random) -> [f64; 3] {
    std::array::from_fn(|_| f(random))
}

/// A sound input of n epochs: anchors anywhere, links along the whole track or anywhere.
pub fn sound(random: &mut Random, n: usize) -> Input {
    let size = random.pick(&[
        Size::Ordinary,
        Size::Huge,
        Size::Whole,
        Size::Subnormal,
        Size::Mixed,
    ]);
    let v = |random: &mut Random| value(random, size);
    let s = |random: &mut Random| sigma(random, size);
    let mut input = Input {
        n,
        huber: match random.below(6) {
            0 => 0.0,
            1 => -1.0,
            2 => exp2(random.between(-1000, -10)),
            3 => 1.5 * (1.0 + random.unit()),
            _ => 2.0,
        },
        iterations: match random.below(8) {
            0 => random.place(51),
            _ => random.place(9),
        },
        ..Input::default()
    };
    for _ in 0..(1 + random.place(n + 2)).min(MOST) {
        input
            .anchors
            .push(random.place(n), three(v, random), three(s, random));
    }
    if n > 1 {
        if random.below(3) > 0 {
            for i in 0..n - 1 {
                input.links.push(i, three(v, random), three(s, random));
            }
        }
        for _ in 0..random.place(n + 1).min(MOST - input.links.count) {
            input
                .links
                .push(random.place(n - 1), three(v, random), three(s, random));
        }
    }
    input
}

/// One thing of the input changed to an edge or beyond it.
fn spoil(random: &mut Random, input: &mut Input) {
    let columns = if random.below(2) == 0 {
        &mut input.anchors
    } else {
        &mut input.links
    };
    match random.below(12) {
        0 => input.huber = random.pick(&[f64::NAN, f64::INFINITY, 1e9, -1e9, 1.0000000001e9]),
        1 => input.iterations = random.pick(&[0, 1, 50, 51, usize::MAX]),
        2 => input.n = random.pick(&[0, MOST, MOST + 1, usize::MAX]),
        3 => columns.count = random.pick(&[0, MOST, MOST + 1, usize::MAX]),
        4 => {
            let n = random.place(columns.value.len() + 1);
            columns.value.truncate(n);
        }
        5 => {
            let n = random.place(columns.sigma.len() + 1);
            columns.sigma.truncate(n);
        }
        6 => {
            let n = random.place(columns.index.len() + 1);
            columns.index.truncate(n);
        }
        7 if !columns.index.is_empty() => {
            let j = random.place(columns.index.len());
            let edges = [
                input.n.wrapping_sub(2),
                input.n.wrapping_sub(1),
                input.n,
                usize::MAX - 1,
                usize::MAX,
            ];
            columns.index[j] = random.pick(&edges);
        }
        8 if !columns.sigma.is_empty() => {
            let j = random.place(columns.sigma.len());
            columns.sigma[j] = random.pick(&[0.0, -0.0, -1.0, f64::NAN, 1e9, 1.1e9, f64::INFINITY]);
        }
        9 if !columns.value.is_empty() => {
            let j = random.place(columns.value.len());
            columns.value[j] = random.pick(&[1e9, -1e9, 1.1e9, f64::NAN, f64::NEG_INFINITY]);
        }
        10 => columns.index.extend([7; 3]),
        _ => columns.value.extend([f64::NAN; 3]),
    }
}

/// The epochs of the next input: few, some, or up to all.
fn epochs(random: &mut Random) -> usize {
    match random.below(500) {
        0 => MOST,
        1 => 1 + random.place(MOST),
        2..=20 => 1 + random.place(60),
        _ => 1 + random.place(6),
    }
}

/// Floats of any bits, one in four a NaN of either sign, signaling or quiet, with any payload.
fn lent(random: &mut Random, n: usize) -> Vec<f64> {
    let mut next = || match random.below(4) {
        0 => random.bits() | 0x7FF0_0000_0000_0001,
        _ => random.bits(),
    };
    (0..n).map(|_| f64::from_bits(next())).collect()
}

fn compare(tally: &mut Tally, random: &mut Random, count: u64) {
    let (mut accepted, mut numbers) = (0, [0u64; 11]);
    for _ in 0..count {
        let n = epochs(random);
        let mut input = sound(random, n);
        if random.below(6) == 0 {
            spoil(random, &mut input);
        }
        let room = |random: &mut Random, need: usize| match random.below(40) {
            0 => random.place(need.min(20_000) + 1),
            _ => need.min(20_000) + random.place(3),
        };
        let need = input
            .n
            .saturating_mul(9)
            .saturating_add(input.anchors.count)
            .saturating_add(input.links.count);
        let result = room(random, input.n.saturating_mul(3));
        let work = room(random, need);
        let (before, before_work) = (lent(random, result), lent(random, work));
        let (mut ours, mut ours_work) = (before.clone(), before_work.clone());
        let number = ffi::track(&input, &mut ours, &mut ours_work);
        let theirs = reference(&input, result, work);
        let same = match &theirs {
            Ok(track) => {
                let flat = track.iter().flat_map(|p| [p.x, p.y, p.z]);
                number == 0
                    && flat.map(f64::to_bits).eq(raw(&ours[..3 * input.n]))
                    && raw(&before[3 * input.n..]).eq(raw(&ours[3 * input.n..]))
                    && ours[..3 * input.n].iter().all(|x| x.is_finite())
            }
            Err(refusal) => number == *refusal && raw(&before).eq(raw(&ours)),
        };
        let kept = match &theirs {
            Err(2..=6) => raw(&before_work).eq(raw(&ours_work)),
            _ => {
                raw(&ours_work[..need]).all(|x| x == 0)
                    && raw(&before_work[need..]).eq(raw(&ours_work[need..]))
            }
        };
        match &theirs {
            Ok(_) => accepted += 1,
            Err(refusal) => numbers[*refusal as usize] += 1,
        }
        tally.judge(same && kept, || {
            format!(
                "n {} anchors {} links {} huber {:016X} iterations {}: our number {number}, Rust's {:?}; result {} work {}; anchors {:?} {} {}; links {:?} {} {}",
                input.n,
                input.anchors.count,
                input.links.count,
                input.huber.to_bits(),
                input.iterations,
                theirs.as_ref().map(|_| 0),
                same,
                kept,
                input.anchors.index,
                hex(raw(&input.anchors.value)),
                hex(raw(&input.anchors.sigma)),
                input.links.index,
                hex(raw(&input.links.value)),
                hex(raw(&input.links.sigma)),
            )
        });
    }
    tally.note(format!(
        "{accepted} accepted; refused by 2: {}, 3: {}, 4: {}, 6: {}, 10: {}",
        numbers[2], numbers[3], numbers[4], numbers[6], numbers[10]
    ));
}

/// A drive: an anchor an epoch, good to metres, and a link to the next, good to centimetres; one in twenty is wrong.
fn drive(random: &mut Random, n: usize, iterations: usize) -> Input {
    let mut input = Input {
        n,
        huber: 2.0,
        iterations,
        ..Input::default()
    };
    for i in 0..n {
        let slip = if random.below(20) == 0 { 100.0 } else { 1.0 };
        let noise = three(|r| r.unit() * 5.0 * slip, random);
        let position = [i as f64 + noise[0], noise[1], noise[2]];
        input.anchors.push(i, position, [5.0, 5.0, 8.0]);
    }
    for i in 0..n - 1 {
        let slip = if random.below(20) == 0 { 100.0 } else { 1.0 };
        let noise = three(|r| r.unit() * 0.01 * slip, random);
        let delta = [1.0 + noise[0], noise[1], noise[2]];
        input.links.push(i, delta, [0.01, 0.01, 0.02]);
    }
    input
}

/// The epochs of the rows of a benchmark. 1,024 is a power of two: columns of so many floats stand in the same cache sets, and 1,000 and 1,016 tell whether that costs.
const LENGTHS: [usize; 5] = [64, 256, 1000, 1016, MOST];

fn time(random: &mut Random) {
    for passes in [1, 6] {
        for n in LENGTHS {
            let input = drive(random, n, passes);
            let (anchors, links, settings) = input.rust();
            let (mut result, mut work) = (vec![0.0; 3 * n], vec![0.0; input.need()]);
            bench::row(
                &format!("track {passes}"),
                n,
                1,
                || {
                    black_box(ffi::track(black_box(&input), &mut result, &mut work));
                    black_box(&result);
                },
                || {
                    black_box(smooth(
                        n,
                        black_box(&anchors),
                        black_box(&links),
                        &settings,
                    ));
                },
            );
        }
    }
}

/// How many epochs, anchors and links a case has room for, and how long the lent buffers are.
const ROOM: usize = 8;

/// Epochs, anchors, links, huber, iterations; of each anchor and then of each link index, value 3, sigma 3; number, the result's 24 floats afterwards
/// and how many floats of the work are zeros afterwards, where all of both were 1 before.
pub fn vectors(random: &mut Random) -> Vectors {
    let wanted = [(0, 20), (2, 2), (3, 3), (4, 4), (6, 5), (10, 4)];
    let next = || {
        let n = 1 + random.place(4);
        let mut input = sound(random, n);
        if random.below(2) == 0 {
            spoil(random, &mut input);
        }
        let (n, a, l) = (input.n, &input.anchors, &input.links);
        let few = |c: &Columns| c.count <= ROOM && c.long();
        if !(few(a) && few(l)) {
            return None;
        }
        // More epochs than there is room for are refused by the lent buffers.
        let (room, work) = (3 * ROOM, 11 * ROOM);
        let answer = reference(&input, room, work);
        let number = *answer.as_ref().err().unwrap_or(&0);
        let mut given = vec![n as u64, a.count as u64, l.count as u64];
        given.extend([input.huber.to_bits(), input.iterations as u64]);
        for c in [a, l] {
            for j in 0..c.count {
                given.push(c.index[j] as u64);
                given.extend(raw(&c.value[3 * j..3 * j + 3]));
                given.extend(raw(&c.sigma[3 * j..3 * j + 3]));
            }
        }
        let zeros = match number {
            2..=6 => 0,
            _ => input.need(),
        };
        let track = answer.unwrap_or_default();
        let mut result: Vec<f64> = track.iter().flat_map(|p| [p.x, p.y, p.z]).collect();
        result.resize(room, 1.0);
        let mut stored = vec![u64::from(number)];
        stored.extend(raw(&result));
        stored.push(zeros as u64);
        Some((number, (given, stored)))
    };
    Vectors::of(of_each(&wanted, next))
}
