//! Times of both sides in one run, taken in turn.

use crate::instructions;
use std::time::{Duration, Instant};

/// How long one batch takes, about: shorter than a time slice, so that few are interrupted.
const BATCH: Duration = Duration::from_micros(150);
/// How many batches each side has.
const BATCHES: usize = 301;

/// Prints the head of the table.
pub fn head() {
    if instructions::counted() {
        return;
    }
    println!(
        "{:<30} {:>5} {:>10} {:>10} {:>6}",
        "service", "size", "rattle_ns", "rust_ns", "ratio"
    );
}

/// Prints a row: the middle batch of each side, for one of `calls` calls, and the middle of the
/// ratios of neighbouring batches, which another load on the machine hardly moves.
pub fn row(
    service: &str,
    size: usize,
    calls: usize,
    mut rattle: impl FnMut(),
    mut rust: impl FnMut(),
) {
    if instructions::counted() {
        instructions::tell(service, size, calls);
        instructions::count(&mut rattle);
        instructions::count(&mut rust);
        return;
    }
    let (ours, theirs) = (repeats(&mut rattle), repeats(&mut rust));
    let one = |n: u32, f: &mut dyn FnMut()| batch(n, f) / (calls as f64 * f64::from(n));
    let pairs: Vec<(f64, f64)> = (0..BATCHES)
        .map(|_| (one(ours, &mut rattle), one(theirs, &mut rust)))
        .collect();
    print(service, size, &pairs);
}

/// Prints the middle of each side, and of the ratios.
fn print(service: &str, size: usize, pairs: &[(f64, f64)]) {
    println!(
        "{service:<30} {size:>5} {:>10.2} {:>10.2} {:>6.2}",
        middle(pairs.iter().map(|p| p.0)),
        middle(pairs.iter().map(|p| p.1)),
        middle(pairs.iter().map(|p| p.0 / p.1))
    );
}

/// How often to run `f` for one batch.
fn repeats(f: &mut impl FnMut()) -> u32 {
    f();
    let mut n = 1;
    loop {
        let start = Instant::now();
        for _ in 0..n {
            f();
        }
        if start.elapsed() >= BATCH {
            return n;
        }
        n *= 2;
    }
}

/// The nanoseconds of one batch.
fn batch(repeats: u32, f: &mut dyn FnMut()) -> f64 {
    let start = Instant::now();
    for _ in 0..repeats {
        f();
    }
    start.elapsed().as_nanos() as f64
}

/// The middle one of some numbers.
fn middle(numbers: impl Iterator<Item = f64>) -> f64 {
    let mut sorted: Vec<f64> = numbers.collect();
    sorted.sort_by(f64::total_cmp);
    sorted[sorted.len() / 2]
}
