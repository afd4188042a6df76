//! Not published: the equations of each pass of a track, kept while they are asked for.

use std::cell::{Cell, RefCell};

/// One axis of a pass: its tridiagonal equations before elimination, the pivots, and the solution
/// before the origin is added back.
#[derive(Clone, Debug)]
pub struct Axis {
    /// The diagonal sums.
    pub diagonal: Vec<f64>,
    /// Entry i couples row i to the next.
    pub upper: Vec<f64>,
    /// The right side.
    pub right: Vec<f64>,
    /// What the elimination leaves on the diagonal.
    pub pivot: Vec<f64>,
    /// The solution.
    pub solution: Vec<f64>,
}

thread_local! {
    static ASKED: Cell<bool> = const { Cell::new(false) };
    static AXES: RefCell<Vec<Axis>> = const { RefCell::new(Vec::new()) };
    static PASSES: RefCell<Vec<Vec<Axis>>> = const { RefCell::new(Vec::new()) };
}

/// What `call` gives, and the three axes of each of its passes that did not fail.
pub fn passes_of<T>(call: impl FnOnce() -> T) -> (T, Vec<Vec<Axis>>) {
    AXES.with_borrow_mut(Vec::clear);
    PASSES.with_borrow_mut(Vec::clear);
    ASKED.set(true);
    let out = call();
    ASKED.set(false);
    (out, PASSES.take())
}

/// The equations of an axis, where they are asked for.
#[inline]
pub(crate) fn before(diagonal: &[f64], upper: &[f64], right: &[f64]) -> Option<Axis> {
    ASKED.get().then(|| Axis {
        diagonal: diagonal.to_vec(),
        upper: upper.to_vec(),
        right: right.to_vec(),
        pivot: Vec::new(),
        solution: Vec::new(),
    })
}

/// Keeps an axis once it is solved.
#[inline]
pub(crate) fn solved(axis: Option<Axis>, pivot: &[f64], solution: &[f64]) {
    if let Some(mut axis) = axis {
        axis.pivot = pivot.to_vec();
        axis.solution = solution.to_vec();
        AXES.with_borrow_mut(|axes| axes.push(axis));
    }
}

/// The axes so far are those of a pass that did not fail.
#[inline]
pub(crate) fn passed() {
    if ASKED.get() {
        PASSES.with_borrow_mut(|passes| passes.push(AXES.take()));
    }
}
