//! The columns of an epoch that both estimators take.

/// Constellations and F floats for each record; either may be longer or shorter than the count needs.
pub struct Columns<const F: usize> {
    pub constellation: Vec<u8>,
    pub floats: Vec<f64>,
    pub count: usize,
}

impl<const F: usize> Columns<F> {
    /// The columns of some records.
    pub fn of(records: impl ExactSizeIterator<Item = (u8, [f64; F])>) -> Self {
        let count = records.len();
        let (constellation, floats): (Vec<u8>, Vec<[f64; F]>) = records.unzip();
        Self {
            constellation,
            floats: floats.concat(),
            count,
        }
    }

    /// Whether each column has what the count needs.
    pub fn whole(&self) -> bool {
        self.constellation.len() >= self.count && self.floats.len() / F >= self.count
    }
}

/// Calls an entry point; an argument in brackets is a slice, handed over as pointer and length.
macro_rules! call {
    ($entry:ident($($done:expr),*); [$slice:expr], $($more:tt)*) => {
        call!($entry($($done,)* $slice.as_ptr(), $slice.len()); $($more)*)
    };
    ($entry:ident($($done:expr),*); $other:expr, $($more:tt)*) => {
        call!($entry($($done,)* $other); $($more)*)
    };
    ($entry:ident($($done:expr),*);) => { $entry($($done),*) };
}
pub(super) use call;
