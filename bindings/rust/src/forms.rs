//! Conversions between the two forms of a table of corrections: a signal for each sample, as tables
//! were stored before 0.5.0, and a directory with one block of samples for each signal.

use alloc::vec;
use alloc::vec::Vec;

use crate::refusal::answered;
use crate::{sys, Refusal};

/// The signals of a table's samples, one place for each.
#[derive(Clone, Debug, Default, PartialEq)]
pub struct Signals {
    /// Constellations.
    pub constellation: Vec<u8>,
    /// Satellite ids within their constellations.
    pub svid: Vec<u16>,
    /// Band codes.
    pub band: Vec<u32>,
}

/// A directory: a signal, its first sample and its count of samples at each place.
#[derive(Clone, Debug, Default, PartialEq)]
pub struct Directory {
    /// Constellations.
    pub constellation: Vec<u8>,
    /// Satellite ids within their constellations.
    pub svid: Vec<u16>,
    /// Band codes.
    pub band: Vec<u32>,
    /// The place of each signal's first sample.
    pub first: Vec<usize>,
    /// How many samples each signal has.
    pub count: Vec<usize>,
}

/// Returns the directory of a sorted table; times and corrections are shared.
///
/// ```
/// use zaqnuti::forms::{directory_of, signals_of, Signals};
///
/// let signals = Signals {
///     constellation: vec![1, 1, 6],
///     svid: vec![8, 8, 3],
///     band: vec![1, 1, 5],
/// };
/// let (time, metres) = ([10.0, 20.0, 10.0], [0.5, 0.75, -2.0]);
/// let directory = directory_of(&signals, &time, &metres)?;
/// assert_eq!(directory.first, [0, 2]);
/// assert_eq!(directory.count, [2, 1]);
/// assert_eq!(signals_of(&directory, &time, &metres)?, signals);
/// # Ok::<(), zaqnuti::Refusal>(())
/// ```
pub fn directory_of(signals: &Signals, time: &[f64], metres: &[f64]) -> Result<Directory, Refusal> {
    let n = time.len();
    let mut out = Directory {
        constellation: vec![0; n],
        svid: vec![0; n],
        band: vec![0; n],
        first: vec![0; n],
        count: vec![0; n],
    };
    let mut m = 0;
    // SAFETY: each column has its length beside it, and those written are ours alone.
    let number = unsafe {
        sys::zaqnuti_directory_of(
            signals.constellation.as_ptr(),
            signals.constellation.len(),
            signals.svid.as_ptr(),
            signals.svid.len(),
            signals.band.as_ptr(),
            signals.band.len(),
            time.as_ptr(),
            time.len(),
            metres.as_ptr(),
            metres.len(),
            n,
            out.constellation.as_mut_ptr(),
            n,
            out.svid.as_mut_ptr(),
            n,
            out.band.as_mut_ptr(),
            n,
            out.first.as_mut_ptr(),
            n,
            out.count.as_mut_ptr(),
            n,
            &mut m,
        )
    };
    answered(number)?;
    out.constellation.truncate(m);
    out.svid.truncate(m);
    out.band.truncate(m);
    out.first.truncate(m);
    out.count.truncate(m);
    Ok(out)
}

/// Returns the signals of the samples of a table that has a directory. The shortest column is the
/// capacity, so the directory's columns are taken to have as many places as there are samples.
pub fn signals_of(directory: &Directory, time: &[f64], metres: &[f64]) -> Result<Signals, Refusal> {
    let n = time.len();
    let m = directory.constellation.len();
    let mut d = directory.clone();
    d.constellation.resize(n.max(m), 0);
    d.svid.resize(n.max(d.svid.len()), 0);
    d.band.resize(n.max(d.band.len()), 0);
    d.first.resize(n.max(d.first.len()), 0);
    d.count.resize(n.max(d.count.len()), 0);
    let mut out = Signals {
        constellation: vec![0; n],
        svid: vec![0; n],
        band: vec![0; n],
    };
    // SAFETY: each column has its length beside it, and those written are ours alone.
    let number = unsafe {
        sys::zaqnuti_signals_of(
            d.constellation.as_ptr(),
            d.constellation.len(),
            d.svid.as_ptr(),
            d.svid.len(),
            d.band.as_ptr(),
            d.band.len(),
            d.first.as_ptr(),
            d.first.len(),
            d.count.as_ptr(),
            d.count.len(),
            m,
            time.as_ptr(),
            time.len(),
            metres.as_ptr(),
            metres.len(),
            n,
            out.constellation.as_mut_ptr(),
            n,
            out.svid.as_mut_ptr(),
            n,
            out.band.as_mut_ptr(),
            n,
        )
    };
    answered(number)?;
    Ok(out)
}
