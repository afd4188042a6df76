//! Zaqnuti from Rust: the static library `libzaqnuti.a` under the names and types of drifters-gnss.
//!
//! | module | holds |
//! |---|---|
//! | [`wls`] | the position from one epoch of pseudoranges |
//! | [`tdcp`] | the displacement between two epochs of carrier phases |
//! | [`time`] | epoch times in whole nanoseconds |
//! | [`trip`] | carrier distance beside the odometer: the totals of a trip |
//! | [`mileage`] | a drive's distance, whichever of its epochs were refused |
//! | [`wire`] | carrier records as bytes, and the displacement between two epochs of them |
//! | [`frames`] | displacements as north, east and down |
//! | [`line`](mod@line) | the displacement of a text in the line form |
//! | [`differential`] | corrections from a base station |
//! | [`smooth`](mod@smooth) | the track that fits anchors and links |
//! | [`robust`], [`math`] | the pieces, each a call of its own |
//! | [`sys`] | the entry points themselves, as `include/zaqnuti.h` has them |
//!
//! Where the Rust returns `None`, a call here returns the [`Refusal`] with its number. The library
//! decides every number, too many records and too short a buffer included: the functions here only
//! lay out columns.
//!
//! ```
//! use zaqnuti::{smooth::{self, Anchor, Link}, Refusal, Vec3};
//!
//! // Two fixes, good to some metres, and between them a displacement, good to centimetres.
//! let anchor = |index, x| Anchor { index, position: Vec3::new(x, 0.0, 0.0), sigma: Vec3::new(2.0, 2.0, 2.0) };
//! let link = Link { index: 0, delta: Vec3::new(10.0, 0.0, 0.0), sigma: Vec3::new(0.02, 0.02, 0.02) };
//! let set = smooth::Settings::default();
//! let track = smooth::smooth(2, &[anchor(0, 1.0), anchor(1, 9.0)], &[link], &set)?;
//! assert!((track[0].x - 0.0).abs() < 0.01 && (track[1].x - 10.0).abs() < 0.01);
//!
//! // Without an anchor the track is refused.
//! let none = smooth::smooth(2, &[], &[link], &set);
//! assert_eq!(none.unwrap_err(), Refusal::BadTrack);
//! assert_eq!(Refusal::BadTrack.number(), 6);
//! # Ok::<(), Refusal>(())
//! ```
//!
//! The library is `no_std` and needs `alloc` for tables and tracks; the feature `std`, on by
//! default, also builds the command `zaqnuti`.
#![no_std]
#![warn(missing_docs)]
#![deny(unsafe_op_in_unsafe_fn)]

extern crate alloc;

pub mod differential;
pub mod forms;
pub mod frames;
pub mod line;
pub mod math;
pub mod mileage;
mod refusal;
pub mod robust;
pub mod smooth;
pub mod sys;
pub mod tdcp;
pub mod time;
pub mod trip;
pub mod wire;
pub mod wls;

pub use math::Vec3;
pub use refusal::Refusal;

/// The most records of an epoch, states with it, rows or residuals.
pub const RECORDS: usize = 64;
/// The most samples of a table of corrections.
pub const SAMPLES: usize = 2048;
/// The most epochs, anchors or links of a track.
pub const EPOCHS: usize = 1024;
/// The most rounds of an estimate, or passes of a track.
pub const ROUNDS: usize = 50;
/// The most clock slots: constellations with a clock of their own, those from 7 up as one.
pub const SLOTS: usize = 6;
/// The fewest carrier pairs of a displacement.
pub const PAIRS: usize = 6;
/// The largest magnitude of a setting, coordinate, time or float of a record.
pub const MAGNITUDE: f64 = 1e9;
/// The longest interval of a displacement, seconds: a week.
pub const INTERVAL: f64 = 604_800.0;
/// The last week of a time.
pub const WEEKS: u32 = 15_000;
/// The most bytes of a text in the line form.
pub const TEXT: usize = 32_768;
/// The bytes that always suffice for its answer.
pub const LINE: usize = 59;

/// A place, earth-centred and earth-fixed, metres.
#[derive(Clone, Copy, Debug, Default, PartialEq)]
pub struct Ecef {
    /// Along the equator at longitude 0.
    pub x: f64,
    /// Along the equator at longitude 90 degrees east.
    pub y: f64,
    /// Along the axis of the earth.
    pub z: f64,
}

impl Ecef {
    /// Returns the place of three coordinates.
    pub const fn new(x: f64, y: f64, z: f64) -> Self {
        Self { x, y, z }
    }

    /// Returns its coordinates.
    pub const fn coordinates(self) -> [f64; 3] {
        [self.x, self.y, self.z]
    }
}

/// Collects a column of the first 64 records; a longer epoch is refused by its count.
fn column<R, T: Copy + Default>(records: &[R], of: impl Fn(&R) -> T) -> [T; RECORDS] {
    let mut out = [T::default(); RECORDS];
    for (place, record) in out.iter_mut().zip(records) {
        *place = of(record);
    }
    out
}

/// Like `column`, with N values for each record.
fn columns<R, const N: usize>(records: &[R], of: impl Fn(&R) -> [f64; N]) -> [[f64; N]; RECORDS] {
    let mut out = [[0.0; N]; RECORDS];
    for (place, record) in out.iter_mut().zip(records) {
        *place = of(record);
    }
    out
}

/// The README's program is compiled and run with the other examples.
#[cfg(doctest)]
#[doc = include_str!("../README.md")]
struct Readme;
