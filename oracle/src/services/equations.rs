//! How far a track misses its equations, exactly (docs/SCOPE.md, "Track"): in each row of each axis of each pass
//! whose track is given out or reweighted from, and whose diagonal sums, pivots and solution are finite,
//! the gap is at most 2^-50 (|f c w| + |f e v| + |d v| + |g u|) + 2^-1070 (1+|f|)(1+|c|+|d|)(1+|w|+|v|).

use super::accuracy::{all_finite, one_and_sum, units, ONE};
use super::track::{reference, sound, three, Input};
use super::Service;
use crate::big::Big;
use crate::ffi;
use crate::random::{exp2, Random};
use crate::tally::{hex, Tally};
use crate::vectors::raw;
use drifters_gnss::passes::{passes_of, Axis};

pub const SERVICE: Service = Service {
    name: "equations",
    count: 100_000,
    compare,
    bench: None,
};

/// A row in the letters of docs/SCOPE.md: the factor, the pivot, the pivot above, the entries left and right,
/// the solution at i-1, i and i+1, each 0 where absent; and the diagonal sum and the right side.
#[derive(Clone, Copy)]
struct Row {
    f: f64,
    d: f64,
    c: f64,
    e: f64,
    g: f64,
    w: f64,
    v: f64,
    u: f64,
    diagonal: f64,
    right: f64,
}

fn row(axis: &Axis, i: usize) -> Row {
    let at = |column: &[f64], k: usize| column.get(k).copied().unwrap_or(0.0);
    let above = |column: &[f64]| i.checked_sub(1).map_or(0.0, |k| column[k]);
    let (c, e) = (above(&axis.pivot), above(&axis.upper));
    Row {
        f: if i == 0 { 0.0 } else { e / c },
        d: axis.pivot[i],
        c,
        e,
        g: at(&axis.upper, i),
        w: above(&axis.solution),
        v: axis.solution[i],
        u: at(&axis.solution, i + 1),
        diagonal: axis.diagonal[i],
        right: axis.right[i],
    }
}

/// What a claim has in the places that the must-fail edits of the definition change.
#[derive(Clone, Copy)]
struct Claim {
    /// 2^-50 is 50 of these.
    places: usize,
    /// The unknown behind the factor and the entry on the left.
    unknown: f64,
    /// The row's pivot.
    pivot: f64,
}

impl Row {
    fn numbers(&self) -> [f64; 10] {
        [
            self.f,
            self.d,
            self.c,
            self.e,
            self.g,
            self.w,
            self.v,
            self.u,
            self.diagonal,
            self.right,
        ]
    }

    /// The claim itself.
    fn claim(&self) -> Claim {
        Claim {
            places: 50,
            unknown: self.v,
            pivot: self.d,
        }
    }

    /// The gap between the row's two sides, in units of 2^-4292: 2^-1070 times three units of 2^-1074.
    fn gap(&self) -> Big {
        // In units of 2^-2148; what is negative goes to the other side.
        let mut sides = [Big::zero(), Big::zero()];
        let products = [(self.e, self.w), (self.diagonal, self.v), (self.g, self.u)];
        for (a, x) in products {
            let (p, q) = (units(a), units(x));
            let side = &mut sides[usize::from(p.negative != q.negative)];
            side.add_small(u128::from(p.m) * u128::from(q.m), p.shift + q.shift);
        }
        let p = units(self.right);
        sides[usize::from(!p.negative)].add_small(p.m.into(), p.shift + ONE);
        let mut gap = Big::zero();
        gap.add_shifted(&sides[0].distance(&sides[1]), ONE + 1070);
        gap
    }

    /// The second term of the bound, in the same units.
    fn underflow(&self, pivot: f64) -> Big {
        let sum = |xs: &[f64]| one_and_sum(xs.iter().copied());
        sum(&[self.f])
            .times(&sum(&[self.c, pivot]))
            .times(&sum(&[self.w, self.v]))
    }

    /// The bound, in the same units.
    fn bound(&self, claim: Claim) -> Big {
        let mut out = self.underflow(claim.pivot);
        let up = 1070 - claim.places;
        let two = |a: f64, b: f64| {
            let (p, q) = (units(a), units(b));
            (u128::from(p.m) * u128::from(q.m), p.shift + q.shift)
        };
        for (a, b, c) in [(self.f, self.c, self.w), (self.f, self.e, claim.unknown)] {
            let ((m, shift), r) = (two(a, b), units(c));
            out.add_shifted(&Big::from(m, 0).times_small(r.m), shift + r.shift + up);
        }
        for (a, b) in [(claim.pivot, self.v), (self.g, self.u)] {
            let (m, shift) = two(a, b);
            out.add_small(m, shift + ONE + up);
        }
        out
    }

    /// The ratio of gap to bound, and whether the bound holds.
    fn check(&self) -> (f64, bool) {
        let (gap, bound) = (self.gap(), self.bound(self.claim()));
        (gap.over(&bound), gap.compare(&bound).is_le())
    }
}

/// What is seen so far.
#[derive(Default)]
struct Seen {
    rows: u64,
    axes: u64,
    left_out: u64,
    tracks: u64,
    largest: f64,
    /// Rows in which the three claims of the must-fail edits do not hold.
    edits: [u64; 3],
}

/// Whether the condition of the claim holds of an axis.
fn counted(axis: &Axis) -> bool {
    all_finite(&axis.diagonal) && all_finite(&axis.pivot) && all_finite(&axis.solution)
}

/// Whether the last pass, with the origin added, is the track that the library gives.
fn is_given(input: &Input, passes: &[Vec<Axis>]) -> bool {
    let (mut result, mut work) = (vec![0.0; 3 * input.n], vec![0.0; input.need()]);
    let number = ffi::track(input, &mut result, &mut work);
    let last = passes.last().expect("a track has a pass");
    let given = (0..input.n)
        .flat_map(|k| (0..3).map(move |t| last[t].solution[k] + input.anchors.value[t]));
    number == 0 && given.map(f64::to_bits).eq(raw(&result))
}

/// Checks the rows of an input's passes, and gives the largest ratio of them; none where there is no track.
fn check(tally: &mut Tally, seen: &mut Seen, input: &Input) -> Option<f64> {
    let (answer, passes) = passes_of(|| reference(input, 3 * input.n, input.need()));
    answer.ok()?;
    let given = is_given(input, &passes);
    seen.tracks += 1;
    let mut largest = 0f64;
    for axis in passes.iter().flatten() {
        if !counted(axis) {
            seen.left_out += 1;
            continue;
        }
        seen.axes += 1;
        for i in 0..input.n {
            let row = row(axis, i);
            // The condition leaves nothing behind that is not finite; units need that.
            let (ratio, holds) = if all_finite(&row.numbers()) {
                row.check()
            } else {
                (f64::INFINITY, false)
            };
            seen.rows += 1;
            largest = largest.max(ratio);
            if ratio > 1.0 / 64.0 {
                let below = axis.pivot.get(i + 1).copied();
                for (k, claim) in edited(&row, below).into_iter().enumerate() {
                    let fails = row.gap().compare(&row.bound(claim)).is_gt();
                    seen.edits[k] += u64::from(fails);
                }
            }
            tally.judge(holds && given, || told(&row, i, ratio, given));
        }
    }
    seen.largest = seen.largest.max(largest);
    Some(largest)
}

/// The claims of the must-fail edits: 2^-53, the unknown above behind the factor, and the pivot of the row below
/// (the row's own in the last row).
fn edited(row: &Row, below: Option<f64>) -> [Claim; 3] {
    let own = row.claim();
    [
        Claim { places: 53, ..own },
        Claim {
            unknown: row.w,
            ..own
        },
        Claim {
            pivot: below.unwrap_or(row.d),
            ..own
        },
    ]
}

fn told(row: &Row, i: usize, ratio: f64, given: bool) -> String {
    format!(
        "row {i}, ratio {ratio:.6}, the library's track {given}: f, d, c, e, g, w, v, u, diagonal, right {}",
        hex(raw(&row.numbers()))
    )
}

/// An input whose anchors hold it badly: far anchors of large sigma, links of small.
fn badly_held(random: &mut Random, n: usize) -> Input {
    let mut input = Input {
        n,
        huber: random.pick(&[2.0, 0.5, exp2(-60)]),
        iterations: 1 + random.place(4),
        ..Input::default()
    };
    let spread = random.between(0, 29);
    for _ in 0..1 + random.place(2) {
        let place = random.place(n);
        let position = three(|r| r.unit() * 1e9, random);
        let sigma = three(|r| (1.5 + r.unit()) * exp2(spread) * 0.5, random);
        input.anchors.push(place, position, sigma);
    }
    for i in 0..n - 1 {
        let delta = three(|r| r.unit() * exp2(r.between(-10, 20)), random);
        let sigma = three(|r| (1.5 + r.unit()) * exp2(-spread), random);
        input.links.push(i, delta, sigma);
    }
    input
}

/// An input whose weights are as large, or as small, as they can be.
fn at_the_ends(random: &mut Random, n: usize) -> Input {
    let mut input = sound(random, n);
    let high = random.below(2) == 0;
    if !high {
        input.huber = exp2(random.between(-1074, -900));
        input.iterations = 2 + random.place(5);
    }
    for columns in [&mut input.anchors, &mut input.links] {
        for x in &mut columns.sigma {
            *x = match high {
                true => (1.5 + random.unit()) * exp2(random.between(-512, -500)),
                false => (1.5 + random.unit()) * exp2(random.between(0, 28)),
            };
        }
        for x in &mut columns.value {
            *x = random.unit() * exp2(random.between(-60, 29));
        }
    }
    input
}

/// Some input of few epochs, now and then of many.
fn some(random: &mut Random) -> Input {
    let n = match random.below(60) {
        0 => 1 + random.place(1024),
        1..=5 => 1 + random.place(60),
        _ => 1 + random.place(6),
    };
    match random.below(4) {
        0 => badly_held(random, n),
        1 => at_the_ends(random, n),
        _ => sound(random, n),
    }
}

/// A track whose diagonal sums overflow and whose solution is 0: the condition leaves its axes out.
fn overflowing() -> Input {
    let mut input = Input {
        n: 1,
        huber: 2.0,
        iterations: 6,
        ..Input::default()
    };
    for _ in 0..2 {
        input.anchors.push(0, [0.0; 3], [1e-154; 3]);
    }
    input
}

/// One float of the input a little or much changed.
fn moved(random: &mut Random, input: &Input) -> Input {
    let mut out = input.clone();
    let columns = match random.below(2) {
        0 => &mut out.anchors,
        _ => &mut out.links,
    };
    let floats = match random.below(2) {
        0 => &mut columns.value,
        _ => &mut columns.sigma,
    };
    if !floats.is_empty() {
        let k = random.place(floats.len());
        let x = &mut floats[k];
        *x = match random.below(4) {
            0 => *x * (1.0 + random.unit() * exp2(-random.between(1, 40))),
            1 => *x * exp2(random.between(-3, 3)),
            2 => *x + random.unit(),
            _ => f64::from_bits(
                x.to_bits()
                    .wrapping_add_signed(i64::from(random.between(-9, 9))),
            ),
        };
    }
    out
}

/// Climbs from an input to ones of a larger ratio.
fn climb(tally: &mut Tally, seen: &mut Seen, random: &mut Random) {
    let n = 1 + random.place(4);
    let mut best = match random.below(2) {
        0 => badly_held(random, n),
        _ => sound(random, n),
    };
    let Some(mut highest) = check(tally, seen, &best) else {
        return;
    };
    for _ in 0..400 {
        let next = moved(random, &best);
        if let Some(ratio) = check(tally, seen, &next) {
            if ratio >= highest {
                (best, highest) = (next, ratio);
            }
        }
    }
}

/// Checks so many rows: three parts of inputs of all kinds, and one of climbs.
fn compare(tally: &mut Tally, random: &mut Random, count: u64) {
    let mut seen = Seen::default();
    check(tally, &mut seen, &overflowing());
    while seen.rows < count / 4 * 3 {
        let input = some(random);
        check(tally, &mut seen, &input);
    }
    while seen.rows < count {
        climb(tally, &mut seen, random);
    }
    let [sharper, unknown, below] = seen.edits;
    tally.note(format!(
        "rows of {} axes of {} tracks, {} axes left out; largest ratio of gap to bound {:.6}; above the bound with 2^-53: {sharper}, with the unknown above behind f e: {unknown}, with the pivot of the row below: {below}",
        seen.axes, seen.tracks, seen.left_out, seen.largest
    ));
}

#[cfg(test)]
mod tests {
    use super::*;

    /// A row of one equation, v = right.
    fn one(v: f64, right: f64) -> Row {
        let zero = 0.0;
        Row {
            f: zero,
            d: 1.0,
            c: zero,
            e: zero,
            g: zero,
            w: zero,
            v,
            u: zero,
            diagonal: 1.0,
            right,
        }
    }

    #[test]
    fn the_bound_is_met_and_missed_where_it_lies() {
        // |v - 1| ≤ 2^-50 v, and the other term is far below a unit in the last place.
        let at = |ulps: f64| one(1.0 + ulps * f64::EPSILON, 1.0).check();
        assert_eq!(at(0.0), (0.0, true));
        assert!(at(4.0).1);
        assert!(!at(5.0).1);
        assert!((at(2.0).0 - 0.5).abs() < 1e-9);
    }

    #[test]
    fn the_second_term_is_the_stated_one() {
        // |right| ≤ 2^-1070 (1+0)(1+0+1)(1+0+0), 32 units of 2^-1074.
        let at = |units: u64| one(0.0, -f64::from_bits(units)).check();
        assert_eq!(at(32), (1.0, true));
        assert!(!at(33).1);
    }

    #[test]
    fn each_product_counts() {
        // The gap is 2^-50 times the one product that is not 0, and a little more or less.
        let all = Row {
            f: 2.0,
            d: 3.0,
            c: 5.0,
            e: 7.0,
            g: 11.0,
            w: 13.0,
            v: 17.0,
            u: 19.0,
            diagonal: 0.0,
            right: 0.0,
        };
        // 130 + 238 + 51 + 209.
        let sum = 628.0 * exp2(-50);
        let off = |by: f64| {
            let left = all.e * all.w + all.g * all.u;
            Row {
                right: 0.0,
                diagonal: (by - left) / all.v,
                ..all
            }
        };
        assert!(off(sum * 0.4).check().1);
        assert!(!off(sum * 300.0).check().1);
    }

    #[test]
    fn sums_that_overflow_are_left_out() {
        let (mut tally, mut seen) = (Tally::new("equations"), Seen::default());
        assert_eq!(check(&mut tally, &mut seen, &overflowing()), Some(0.0));
        assert_eq!((seen.tracks, seen.axes), (1, 0));
        assert_eq!(seen.left_out % 3, 0);
        assert!(seen.left_out > 0);
    }

    #[test]
    fn no_edit_of_the_claim_is_true() {
        let (mut tally, mut seen) = (Tally::new("equations"), Seen::default());
        let mut random = Random::new(1, "equations");
        while seen.rows < 40_000 {
            climb(&mut tally, &mut seen, &mut random);
        }
        assert!(seen.edits.iter().all(|&n| n > 0), "{:?}", seen.edits);
        assert!(seen.largest < 1.0);
    }
}
