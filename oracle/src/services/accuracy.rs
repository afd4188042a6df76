//! The accuracy bound on solved systems, exactly: in each of nine rows
//! |A x − b| ≤ 2^-48 (|L||Lᵀ||x|) + 2^-1070 (1+F)(1+F)(1+X),
//! A the lower triangle mirrored, F the sum of |L|'s entries, X the sum of |x|'s.

use super::Service;
use crate::big::Big;
use crate::ffi;
use crate::ffi::{Column, Square};
use crate::random::Random;
use crate::system;
use crate::tally::{hex, Tally};

pub const SERVICE: Service = Service {
    name: "accuracy",
    count: 100_000,
    compare,
    bench: None,
};

/// 1 in units of 2^-1074.
pub const ONE: usize = 1074;

/// A finite double in units of 2^-1074: its sign, and m times 2 to the power `shift`.
pub struct Units {
    pub negative: bool,
    pub m: u64,
    pub shift: usize,
}

pub fn units(x: f64) -> Units {
    let bits = x.to_bits();
    let exponent = (bits >> 52 & 0x7FF) as usize;
    let fraction = bits & ((1 << 52) - 1);
    Units {
        negative: x.is_sign_negative(),
        m: if exponent == 0 {
            fraction
        } else {
            fraction | 1 << 52
        },
        shift: exponent.saturating_sub(1),
    }
}

/// The sum of magnitudes, and 1, in units of 2^-1074.
pub fn one_and_sum(xs: impl Iterator<Item = f64>) -> Big {
    let mut sum = Big::from(1, ONE);
    for x in xs.map(units) {
        sum.add_small(x.m.into(), x.shift);
    }
    sum
}

/// The largest of nine ratios of left side to bound, and whether the bound holds in each row.
///
/// Both sides are whole numbers in units of 2^-4292, which is 2^-1070 times three units of 2^-1074.
pub fn check(a: &Square, b: &Column, l: &Square, x: &Column) -> (f64, bool) {
    let x_units = x.map(units);
    // |Lᵀ||x|, in units of 2^-2148.
    let inner: [Big; 9] = std::array::from_fn(|k| {
        let mut sum = Big::zero();
        for i in k..9 {
            let (p, q) = (units(l[i][k]), &x_units[i]);
            sum.add_small(u128::from(p.m) * u128::from(q.m), p.shift + q.shift);
        }
        sum
    });
    let lower = (0..9).flat_map(|i| l[i][..=i].iter().copied());
    let f = one_and_sum(lower);
    let underflow = f.times(&f).times(&one_and_sum(x.iter().copied()));
    let (mut largest, mut holds) = (0f64, true);
    for i in 0..9 {
        // A x and b, in units of 2^-2148; what is negative goes to the other side.
        let mut sides = [Big::zero(), Big::zero()];
        for (j, q) in x_units.iter().enumerate() {
            let p = units(a[i.max(j)][i.min(j)]);
            let side = &mut sides[usize::from(p.negative != q.negative)];
            side.add_small(u128::from(p.m) * u128::from(q.m), p.shift + q.shift);
        }
        let p = units(b[i]);
        sides[usize::from(!p.negative)].add_small(p.m.into(), p.shift + ONE);
        let mut left = Big::zero();
        left.add_shifted(&sides[0].distance(&sides[1]), ONE + 1070);
        // 2^-48 of a sum in three units is 2^1022 of these units.
        let mut bound = underflow.clone();
        for (k, sum) in inner.iter().enumerate().take(i + 1) {
            let p = units(l[i][k]);
            if p.m == 0 {
                continue;
            }
            bound.add_shifted(&sum.times_small(p.m), p.shift + 1070 - 48);
        }
        holds &= left.compare(&bound).is_le();
        largest = largest.max(left.over(&bound));
    }
    (largest, holds)
}

/// Whether all are finite.
pub fn all_finite(xs: &[f64]) -> bool {
    xs.iter().all(|x| x.is_finite())
}

/// Checks so many systems that were accepted and have a finite solution.
fn compare(tally: &mut Tally, random: &mut Random, count: u64) {
    let (mut solved, mut tried, mut largest) = (0, 0u64, 0f64);
    while solved < count {
        tried += 1;
        let (a, b) = (system::matrix(random), system::column(random));
        let mut l = [[0.0; 9]; 9];
        if ffi::factor(&a, &mut l) != 0 {
            continue;
        }
        let x = ffi::solve(&l, &b);
        if !all_finite(&x) {
            continue;
        }
        solved += 1;
        // A finite solution leaves nothing that is not finite behind it; units need that.
        let lower = |m: &Square| (0..9).all(|i| all_finite(&m[i][..=i]));
        let (ratio, holds) = if lower(&a) && lower(&l) && all_finite(&b) {
            check(&a, &b, &l, &x)
        } else {
            (f64::INFINITY, false)
        };
        largest = largest.max(ratio);
        tally.judge(holds, || {
            format!(
                "the bound fails, ratio {ratio:.6}: matrix {}, right side {}, solution {}",
                hex(super::factor::raw(&a)),
                hex(b.map(f64::to_bits)),
                hex(x.map(f64::to_bits))
            )
        });
    }
    tally.note(format!(
        "{solved} systems solved of {tried} tried, largest ratio of left side to bound {largest:.6}"
    ));
}

#[cfg(test)]
mod tests {
    use super::*;

    fn identity() -> Square {
        let mut a = [[0.0; 9]; 9];
        (0..9).for_each(|i| a[i][i] = 1.0);
        a
    }

    #[test]
    fn an_exact_solution_has_ratio_zero() {
        let b = [1.0, -2.0, 0.5, 1e300, -1e-300, 5e-324, 0.0, 3.0, 4.0];
        assert_eq!(check(&identity(), &b, &identity(), &b), (0.0, true));
    }

    #[test]
    fn the_bound_is_met_and_missed_where_it_lies() {
        // Row 0 is |x - 1| ≤ 2^-48 x, and the other term is far below a unit in the last place.
        let at = |ulps: f64| {
            let mut x = [0.0; 9];
            x[0] = 1.0 + ulps * f64::EPSILON;
            let mut b = [0.0; 9];
            b[0] = 1.0;
            check(&identity(), &b, &identity(), &x)
        };
        assert!(at(16.0).1);
        assert!(!at(17.0).1);
        assert!((at(8.0).0 - 0.5).abs() < 1e-9);
    }

    #[test]
    fn the_second_term_is_the_stated_one() {
        // A x and |L||Lᵀ||x| vanish: |b| ≤ 2^-1070 (1+F)(1+F)(1+X) with F 9 and X 0, 100 · 2^-1070.
        let at = |units: u64| {
            let mut b = [0.0; 9];
            b[3] = -f64::from_bits(units);
            check(&identity(), &b, &identity(), &[0.0; 9])
        };
        assert_eq!(at(1600), (1.0, true));
        assert!(!at(1601).1);
    }
}
