//! Tables with a fault: a float out of range, or one of the directory's faults as request (ix) lists them.

use super::lent::Table;
use super::odd;
use crate::random::Random;

/// A fault for the table, of one kind or another; some leave a small table as it was, or sound.
pub fn damage(random: &mut Random, t: &mut Table) {
    if t.n == 0 {
        empty(random, t);
        return;
    }
    let (i, j) = (random.place(t.n), random.place(t.m));
    let k = random.place(t.m);
    match random.below(15) {
        0 => t.ts[i] = odd(random),
        1 => t.xs[i] = odd(random),
        // Unsorted: names exchanged, or whole entries.
        2 => names(t, j, k),
        3 => {
            names(t, j, k);
            places(t, j, k);
        }
        // A satellite named twice.
        4 if t.m > 1 => {
            let to = (j + 1) % t.m;
            (t.dc[to], t.dv[to], t.db[to]) = t.name(j);
        }
        // An empty block, the next one taking its samples, or none doing so.
        5 if j + 1 < t.m => {
            t.df[j + 1] = t.df[j];
            t.dn[j + 1] += t.dn[j];
            t.dn[j] = 0;
        }
        6 => t.dn[j] = 0,
        // Blocks in another order than the directory's.
        7 => places(t, j, k),
        // An overlap.
        8 => t.dn[j] += 1,
        9 if t.df[j] > 0 => {
            t.df[j] -= 1;
            t.dn[j] += 1;
        }
        // A gap: before the first block, between two, at the end.
        10 => {
            t.df[j] += 1;
            t.dn[j] -= 1;
        }
        11 => t.dn[t.m - 1] -= 1,
        12 if t.n < t.capacity() => t.n += 1,
        // Past the end, also where first and count add up past 64 bits.
        13 => match random.below(4) {
            0 => t.n -= 1,
            1 => t.dn[j] = usize::MAX - random.place(3),
            2 => t.df[j] = usize::MAX - random.place(3),
            _ => (t.df[j], t.dn[j]) = (usize::MAX - t.dn[j] + 1, t.dn[j] * 2),
        },
        // Times out of order in a block.
        14 => {
            let from = t.df[j] + random.place(t.dn[j]);
            let to = t.df[j] + random.place(t.dn[j]);
            t.ts.swap(from, to);
        }
        _ => t.m -= 1,
    }
}

/// An entry or a sample where there is none.
fn empty(random: &mut Random, t: &mut Table) {
    if t.capacity() > 0 {
        match random.below(2) {
            0 => t.m = 1,
            _ => t.n = 1,
        }
    }
}

fn names(t: &mut Table, j: usize, k: usize) {
    t.dc.swap(j, k);
    t.dv.swap(j, k);
    t.db.swap(j, k);
}

fn places(t: &mut Table, j: usize, k: usize) {
    t.df.swap(j, k);
    t.dn.swap(j, k);
}
