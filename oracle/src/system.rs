//! Matrices and right sides of all kinds, nine wide.

use crate::ffi::{Column, Square};
use crate::random::{exp2, Random};

/// B·Bᵀ of a random B with so many columns: below nine it is singular but for rounding.
fn gram(random: &mut Random, columns: usize) -> Square {
    let b: [Column; 9] = std::array::from_fn(|_| {
        let mut row = [0.0; 9];
        row.iter_mut()
            .take(columns)
            .for_each(|x| *x = random.unit());
        row
    });
    let mut a = [[0.0; 9]; 9];
    for i in 0..9 {
        for j in 0..=i {
            a[i][j] = b[i].iter().zip(&b[j]).map(|(x, y)| x * y).sum();
            a[j][i] = a[i][j];
        }
    }
    a
}

/// a with something added to each diagonal entry.
fn lifted(mut a: Square, by: f64) -> Square {
    (0..9).for_each(|i| a[i][i] += by);
    a
}

/// a with every entry changed by its place.
fn mapped(mut a: Square, mut f: impl FnMut(usize, usize, f64) -> f64) -> Square {
    for (i, row) in a.iter_mut().enumerate() {
        for (j, x) in row.iter_mut().enumerate() {
            *x = f(i, j, *x);
        }
    }
    a
}

/// A nearly singular one: few columns, lifted by about as much as rounding may take away.
fn nearly_singular(random: &mut Random) -> Square {
    let columns = 1 + random.place(8);
    let by = random.unit() * exp2(random.between(-56, -44));
    lifted(gram(random, columns), by)
}

/// D·A·D for powers of two on D's diagonal, so far apart as `spread` says.
fn badly_scaled(random: &mut Random, spread: i32) -> Square {
    let d: [i32; 9] = std::array::from_fn(|_| random.between(-spread, spread));
    let a = lifted(gram(random, 9), 0.125);
    mapped(a, |i, j, x| x * exp2(d[i]) * exp2(d[j]))
}

/// A definite one with all entries scaled by one power of two.
fn all_scaled(random: &mut Random, low: i32, high: i32) -> Square {
    let by = exp2(random.between(low, high));
    mapped(lifted(gram(random, 9), 0.5), |_, _, x| x * by)
}

/// A definite one with a few entries replaced.
fn damaged(random: &mut Random, f: fn(&mut Random) -> f64) -> Square {
    let mut a = gram(random, 9);
    for _ in 0..1 + random.place(3) {
        a[random.place(9)][random.place(9)] = f(random);
    }
    a
}

/// Small whole numbers, without rounding: L·Lᵀ, now and then with a zero on L's diagonal.
fn whole(random: &mut Random) -> Square {
    let mut l = [[0.0; 9]; 9];
    for (i, row) in l.iter_mut().enumerate() {
        for x in row.iter_mut().take(i) {
            *x = f64::from(random.between(-3, 3));
        }
        row[i] = f64::from(random.between(1, 4));
    }
    if random.below(2) == 0 {
        let i = random.place(9);
        l[i][i] = 0.0;
    }
    let mut a = [[0.0; 9]; 9];
    for i in 0..9 {
        for j in 0..9 {
            a[i][j] = (0..9).map(|k| l[i][k] * l[j][k]).sum();
        }
    }
    a
}

/// The matrix of a round: unit vectors, clock columns, weights, ones for the unused unknowns.
fn normal(random: &mut Random) -> Square {
    let clocks = 1 + random.place(6);
    let rows = 4 + clocks + random.place(20);
    let mut a = [[0.0; 9]; 9];
    for _ in 0..rows {
        let mut row: Column = [0.0; 9];
        let v = [random.unit(), random.unit(), random.unit()];
        let length = (v[0] * v[0] + v[1] * v[1] + v[2] * v[2]).sqrt();
        (0..3).for_each(|k| row[k] = v[k] / length);
        row[3 + random.place(clocks)] = 1.0;
        let w = exp2(random.between(-8, 14));
        for i in 0..9 {
            for j in 0..9 {
                a[i][j] += w * row[i] * row[j];
            }
        }
    }
    (3 + clocks..9).for_each(|i| a[i][i] = 1.0);
    a
}

/// A diagonal one, of any entries where `any`, of powers of two where not.
fn diagonal(random: &mut Random, any: bool) -> Square {
    let mut a = [[0.0; 9]; 9];
    (0..9).for_each(|i| {
        a[i][i] = if any {
            random.float()
        } else {
            exp2(random.between(-1074, 1023))
        }
    });
    a
}

/// A random symmetric one with a diagonal that may or may not outweigh the rest.
fn symmetric(random: &mut Random) -> Square {
    let b = mapped([[0.0; 9]; 9], |_, _, _| random.unit());
    let a = mapped(b, |i, j, _| b[i.max(j)][i.min(j)]);
    let by = 6.0 * random.unit().abs();
    lifted(a, by)
}

/// A matrix of any kind with its lower triangle alone of that kind: the upper one may hold anything.
pub fn matrix(random: &mut Random) -> Square {
    let mut a = match random.below(20) {
        0..=2 => gram(random, 9),
        3 | 4 => nearly_singular(random),
        5 => badly_scaled(random, 20),
        6 => badly_scaled(random, 500),
        7 => damaged(random, |r| r.pick(&[f64::INFINITY, f64::NEG_INFINITY])),
        8 => damaged(random, |r| r.pick(&[f64::NAN, -f64::NAN])),
        9 => damaged(random, Random::float),
        10 | 11 => all_scaled(random, -1074, -1000),
        12 | 13 => all_scaled(random, 1000, 1023),
        14 => whole(random),
        15 | 16 => normal(random),
        17 => {
            let any = random.below(2) == 0;
            diagonal(random, any)
        }
        18 => symmetric(random),
        _ => mapped([[0.0; 9]; 9], |_, _, _| random.float()),
    };
    match random.below(4) {
        0 => {}
        1 => fill_above(&mut a, || 0.0),
        2 => fill_above(&mut a, || f64::NAN),
        _ => fill_above(&mut a, || random.float()),
    }
    a
}

/// Replaces the entries above the diagonal.
fn fill_above(a: &mut Square, mut f: impl FnMut() -> f64) {
    for (i, row) in a.iter_mut().enumerate() {
        row.iter_mut().skip(i + 1).for_each(|x| *x = f());
    }
}

/// A definite and well conditioned one, as the speed is measured on.
pub fn definite(random: &mut Random) -> Square {
    lifted(gram(random, 9), 0.5)
}

/// A right side of any kind.
pub fn column(random: &mut Random) -> Column {
    let scale = match random.below(8) {
        0..=2 => 0,
        3 => random.between(-40, 40),
        4 => random.between(-1074, -1000),
        5 => random.between(900, 1023),
        6 => return std::array::from_fn(|_| random.float()),
        _ => {
            return std::array::from_fn(|_| {
                let power = exp2(random.between(-1074, 1023));
                random.pick(&[0.0, -0.0, 1.0, power])
            })
        }
    };
    std::array::from_fn(|_| random.unit() * exp2(scale))
}

/// Any nine rows of nine floats, for buffers whose bytes must stay and for factors that are none.
pub fn anything(random: &mut Random) -> Square {
    mapped([[0.0; 9]; 9], |_, _, _| random.float())
}
