//! Corrections from a base station: one base epoch added at a time, and queries.

use alloc::vec;
use alloc::vec::Vec;

use crate::refusal::answered;
use crate::{column, columns, sys, Refusal, SAMPLES};

/// A satellite's state at one epoch.
#[derive(Clone, Copy, Debug, PartialEq)]
pub struct SatelliteState {
    /// Constellation.
    pub constellation: u8,
    /// Satellite id within its constellation.
    pub svid: u16,
    /// Band code.
    pub band: u32,
    /// Position at the rover's transmission time, ECEF metres.
    pub position: [f64; 3],
    /// Velocity, ECEF m/s.
    pub velocity: [f64; 3],
    /// Satellite clock bias, metres, as already applied to the rover.
    pub clock: f64,
    /// Modelled ionosphere plus troposphere along the rover's line of sight, metres.
    pub modelled: f64,
}

/// One pseudorange of the base station.
#[derive(Clone, Copy, Debug, PartialEq)]
pub struct BaseRange {
    /// Constellation.
    pub constellation: u8,
    /// Satellite id within its constellation.
    pub svid: u16,
    /// Band code.
    pub band: u32,
    /// Pseudorange, metres.
    pub pseudorange: f64,
}

/// One epoch of the base station.
#[derive(Clone, Debug, PartialEq)]
pub struct BaseEpoch {
    /// Time of week, seconds.
    pub tow: f64,
    /// What the base measured then.
    pub ranges: Vec<BaseRange>,
}

/// A base station.
#[derive(Clone, Debug, PartialEq)]
pub struct Base {
    /// Its position, ECEF metres.
    pub position: [f64; 3],
    /// Its epochs.
    pub epochs: Vec<BaseEpoch>,
}

/// How to build and apply corrections.
#[derive(Clone, Copy, Debug, PartialEq)]
pub struct Settings {
    /// A longer gap, in seconds, is not bridged.
    pub max_gap: f64,
    /// A larger correction, in metres, is dropped.
    pub max_correction: f64,
    /// Constellations to correct.
    pub constellations: [bool; 8],
}

impl Default for Settings {
    fn default() -> Self {
        let mut constellations = [false; 8];
        constellations[1] = true; // GPS
        constellations[6] = true; // Galileo
        Self {
            max_gap: 90.0,
            max_correction: 100.0,
            constellations,
        }
    }
}

/// A signal at a time, as [`Corrections::at_each`] takes it.
#[derive(Clone, Copy, Debug, PartialEq)]
pub struct Signal {
    /// Constellation.
    pub constellation: u8,
    /// Satellite id within its constellation.
    pub svid: u16,
    /// Band code.
    pub band: u32,
    /// Time of week, seconds.
    pub tow: f64,
}

/// Correction time series, in metres, to be **subtracted** from a rover pseudorange.
///
/// ```
/// use zaqnuti::differential::{BaseEpoch, BaseRange, Corrections, SatelliteState, Settings};
/// use zaqnuti::{robust, Ecef, Refusal};
///
/// let base = Ecef::new(-3978242.4348, 3382841.1715, 3649902.7667);
/// let sky = [
///     (8, [-683949.7926, 26351230.7650, 79787.4804]),
///     (11, [-14822915.6595, 8930208.3680, 20079386.0967]),
///     (28, [-2383676.5779, 17483698.3984, 19982740.5748]),
/// ];
/// let states = sky.map(|(svid, position)| SatelliteState {
///     constellation: 1,
///     svid,
///     band: 1,
///     position,
///     velocity: [0.0; 3],
///     clock: 0.0,
///     modelled: 0.0,
/// });
/// // What the base measures if the path to satellite 8 is too long by `error`.
/// let epoch = |tow, error| {
///     let metres = |position| robust::geometry(position, base).map_or(0.0, |sight| sight.1);
///     let range = |(svid, position)| BaseRange {
///         constellation: 1,
///         svid,
///         band: 1,
///         pseudorange: metres(position) + if svid == 8 { error } else { 0.0 },
///     };
///     BaseEpoch { tow, ranges: sky.map(range).to_vec() }
/// };
/// let mut table = Corrections::new(&Settings::default());
/// let place = base.coordinates();
/// table.add(&epoch(0.0, 1.0), Some(&states), place, place)?;
/// table.add(&epoch(30.0, 2.0), Some(&states), place, place)?;
/// assert!((table.at(1, 8, 1, 15.0)? - 1.5).abs() < 1e-6);
/// assert_eq!(table.at(1, 8, 1, 31.0), Err(Refusal::NoCorrection));
/// # Ok::<(), Refusal>(())
/// ```
#[derive(Clone, Debug)]
pub struct Corrections {
    constellation: Vec<u8>,
    svid: Vec<u16>,
    band: Vec<u32>,
    first: Vec<usize>,
    count: Vec<usize>,
    blocks: usize,
    time: Vec<f64>,
    correction: Vec<f64>,
    samples: usize,
    set: Settings,
}

impl Corrections {
    /// Returns an empty table with room for 2,048 samples.
    pub fn new(set: &Settings) -> Self {
        Self::with_capacity(SAMPLES, set)
    }

    /// Returns an empty table with room for so many samples.
    pub fn with_capacity(samples: usize, set: &Settings) -> Self {
        let room = samples.min(SAMPLES);
        Self {
            constellation: vec![0; room],
            svid: vec![0; room],
            band: vec![0; room],
            first: vec![0; room],
            count: vec![0; room],
            blocks: 0,
            time: vec![0.0; room],
            correction: vec![0.0; room],
            samples: 0,
            set: *set,
        }
    }

    /// Adds the corrections of a base epoch; `None` for the states adds nothing.
    pub fn add(
        &mut self,
        epoch: &BaseEpoch,
        states: Option<&[SatelliteState]>,
        base: [f64; 3],
        rover: [f64; 3],
    ) -> Result<(), Refusal> {
        let r = &epoch.ranges;
        let (rc, rv) = (column(r, |r| r.constellation), column(r, |r| r.svid));
        let (rb, rp) = (column(r, |r| r.band), column(r, |r| r.pseudorange));
        let s = states.unwrap_or(&[]);
        let (sc, sv) = (column(s, |s| s.constellation), column(s, |s| s.svid));
        let sb = column(s, |s| s.band);
        let sf = columns(s, |s| {
            let ([x, y, z], [u, v, w]) = (s.position, s.velocity);
            [x, y, z, u, v, w, s.clock, s.modelled]
        });
        let sf = sf.as_flattened();
        // SAFETY: each column has its length beside it, and the table is ours alone.
        let number = unsafe {
            sys::zaqnuti_add_epoch(
                self.constellation.as_mut_ptr(),
                self.constellation.len(),
                self.svid.as_mut_ptr(),
                self.svid.len(),
                self.band.as_mut_ptr(),
                self.band.len(),
                self.first.as_mut_ptr(),
                self.first.len(),
                self.count.as_mut_ptr(),
                self.count.len(),
                &mut self.blocks,
                self.time.as_mut_ptr(),
                self.time.len(),
                self.correction.as_mut_ptr(),
                self.correction.len(),
                &mut self.samples,
                epoch.tow,
                r.len(),
                rc.as_ptr(),
                rc.len(),
                rv.as_ptr(),
                rv.len(),
                rb.as_ptr(),
                rb.len(),
                rp.as_ptr(),
                rp.len(),
                states.is_some(),
                s.len(),
                sc.as_ptr(),
                sc.len(),
                sv.as_ptr(),
                sv.len(),
                sb.as_ptr(),
                sb.len(),
                sf.as_ptr(),
                sf.len(),
                &base,
                &rover,
                self.set.max_gap,
                self.set.max_correction,
                &self.set.constellations,
            )
        };
        answered(number)
    }

    /// Returns the correction of a signal at a time, linearly interpolated.
    ///
    /// [`Refusal::NoCorrection`] outside the tracked span or across too long a gap.
    pub fn at(&self, constellation: u8, svid: u16, band: u32, tow: f64) -> Result<f64, Refusal> {
        let mut metres = 0.0;
        // SAFETY: each column has its length beside it, and the last is ours alone.
        let number = unsafe {
            sys::zaqnuti_query(
                self.constellation.as_ptr(),
                self.constellation.len(),
                self.svid.as_ptr(),
                self.svid.len(),
                self.band.as_ptr(),
                self.band.len(),
                self.first.as_ptr(),
                self.first.len(),
                self.count.as_ptr(),
                self.count.len(),
                self.blocks,
                self.time.as_ptr(),
                self.time.len(),
                self.correction.as_ptr(),
                self.correction.len(),
                self.samples,
                self.set.max_gap,
                constellation,
                svid,
                band,
                tow,
                &mut metres,
            )
        };
        answered(number)?;
        Ok(metres)
    }

    /// Like [`Corrections::at`] for each signal and time, with the table checked only once: ask for all
    /// signals of an epoch together.
    ///
    /// The outer refusal is the table's; the inner ones belong to their signals.
    pub fn at_each(&self, asked: &[Signal]) -> Result<Vec<Result<f64, Refusal>>, Refusal> {
        let (c, v) = (
            column(asked, |s| s.constellation),
            column(asked, |s| s.svid),
        );
        let (b, t) = (column(asked, |s| s.band), column(asked, |s| s.tow));
        let mut numbers = vec![0; asked.len()];
        let mut metres = vec![0.0; asked.len()];
        // SAFETY: each column has its length beside it, and the last two are ours alone.
        let number = unsafe {
            sys::zaqnuti_queries(
                self.constellation.as_ptr(),
                self.constellation.len(),
                self.svid.as_ptr(),
                self.svid.len(),
                self.band.as_ptr(),
                self.band.len(),
                self.first.as_ptr(),
                self.first.len(),
                self.count.as_ptr(),
                self.count.len(),
                self.blocks,
                self.time.as_ptr(),
                self.time.len(),
                self.correction.as_ptr(),
                self.correction.len(),
                self.samples,
                self.set.max_gap,
                c.as_ptr(),
                c.len(),
                v.as_ptr(),
                v.len(),
                b.as_ptr(),
                b.len(),
                t.as_ptr(),
                t.len(),
                asked.len(),
                numbers.as_mut_ptr(),
                numbers.len(),
                metres.as_mut_ptr(),
                metres.len(),
            )
        };
        answered(number)?;
        let places = numbers.into_iter().zip(metres);
        Ok(places.map(|(n, x)| answered(n).map(|()| x)).collect())
    }

    /// Drops the samples before a time of week, keeping the last of each signal. [`Corrections::at`]
    /// that time or later answers as if nothing had been dropped.
    ///
    /// [`Refusal::BadDropTime`] if the time is not finite.
    pub fn forget(&mut self, tow: f64) -> Result<(), Refusal> {
        // SAFETY: each column has its length beside it, and the table is ours alone.
        let number = unsafe {
            sys::zaqnuti_forget(
                self.constellation.as_ptr(),
                self.constellation.len(),
                self.svid.as_ptr(),
                self.svid.len(),
                self.band.as_ptr(),
                self.band.len(),
                self.first.as_mut_ptr(),
                self.first.len(),
                self.count.as_mut_ptr(),
                self.count.len(),
                self.blocks,
                self.time.as_mut_ptr(),
                self.time.len(),
                self.correction.as_mut_ptr(),
                self.correction.len(),
                &mut self.samples,
                tow,
            )
        };
        answered(number)
    }

    /// Returns how many samples there are.
    pub fn samples(&self) -> usize {
        self.samples
    }

    /// Returns how many signals have samples.
    pub fn satellites(&self) -> usize {
        self.blocks
    }
}

/// Widens the bands of a stored table of at most 2,048 samples from 8 bits to the 32 bits that the
/// calls of [`sys`] take.
///
/// ```
/// assert_eq!(zaqnuti::differential::widen_bands(&[1, 255, 7])?, [1, 255, 7]);
/// # Ok::<(), zaqnuti::Refusal>(())
/// ```
pub fn widen_bands(narrow: &[u8]) -> Result<Vec<u32>, Refusal> {
    let mut wide = vec![0; narrow.len()];
    // SAFETY: each column has its length beside it, and the last is ours alone.
    let number = unsafe {
        sys::zaqnuti_widen_bands(
            narrow.as_ptr(),
            narrow.len(),
            narrow.len(),
            wide.as_mut_ptr(),
            wide.len(),
        )
    };
    answered(number)?;
    Ok(wide)
}

/// Returns the corrections of all epochs of a base station, from the states that the rover knows at
/// each time of week; epochs without states are skipped.
pub fn build<F>(
    base: &Base,
    rover: [f64; 3],
    mut states: F,
    set: &Settings,
) -> Result<Corrections, Refusal>
where
    F: FnMut(f64) -> Option<Vec<SatelliteState>>,
{
    let mut out = Corrections::new(set);
    for epoch in &base.epochs {
        let known = states(epoch.tow);
        out.add(epoch, known.as_deref(), base.position, rover)?;
    }
    Ok(out)
}
