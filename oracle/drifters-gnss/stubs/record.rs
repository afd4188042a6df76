//! Not published: what each round of a call forms and solves, kept while it is asked for.

use crate::robust::NX;
use drifters_core::math::{Cholesky, Matrix};
use std::cell::{Cell, RefCell};

/// The four things of a round, nine wide.
#[derive(Clone, Copy, Debug)]
pub struct Round {
    /// The weighted normal matrix.
    pub matrix: [[f64; NX]; NX],
    /// The right side.
    pub right: [f64; NX],
    /// The Cholesky factor of the matrix.
    pub factor: [[f64; NX]; NX],
    /// The solution.
    pub step: [f64; NX],
}

thread_local! {
    static ASKED: Cell<bool> = const { Cell::new(false) };
    static ROUNDS: RefCell<Vec<Round>> = const { RefCell::new(Vec::new()) };
}

/// What `call` gives, and its rounds.
pub fn rounds_of<T>(call: impl FnOnce() -> T) -> (T, Vec<Round>) {
    ROUNDS.with_borrow_mut(Vec::clear);
    ASKED.set(true);
    let out = call();
    ASKED.set(false);
    (out, ROUNDS.take())
}

/// Keeps a round where it is asked for; a test of one flag where not.
#[inline]
pub(crate) fn note(
    matrix: &Matrix<NX, NX>,
    right: &Matrix<NX, 1>,
    factor: &Cholesky<NX>,
    step: &Matrix<NX, 1>,
) {
    if ASKED.get() {
        keep(matrix, right, factor, step);
    }
}

#[cold]
#[inline(never)]
fn keep(
    matrix: &Matrix<NX, NX>,
    right: &Matrix<NX, 1>,
    factor: &Cholesky<NX>,
    step: &Matrix<NX, 1>,
) {
    let round = Round {
        matrix: matrix.data,
        right: right.to_column(),
        factor: factor.lower.data,
        step: step.to_column(),
    };
    ROUNDS.with_borrow_mut(|rounds| rounds.push(round));
}
