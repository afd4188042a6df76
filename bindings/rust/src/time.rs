//! Epoch times in whole nanoseconds.
//!
//! Receivers report a GPS week and a time of week, which returns to 0 at the end of Saturday.
//! Differences of these times are exact, across the end of a week too.

use crate::refusal::answered;
use crate::{sys, Refusal};

/// Seconds in a GPS week.
pub const SECONDS_PER_WEEK: f64 = 604_800.0;
/// Nanoseconds in a GPS week.
pub const NANOS_PER_WEEK: u64 = 604_800_000_000_000;
/// Nanoseconds in a second.
pub const NANOS_PER_SECOND: u64 = 1_000_000_000;

/// An instant in GPS time, as nanoseconds since the start of week 0, 1980-01-06T00:00:00Z.
///
/// ```
/// use zaqnuti::time::GpsTime;
/// use zaqnuti::Refusal;
///
/// // The last half second of Saturday, and the first of Sunday.
/// let before = GpsTime::new(1316, 604799.5)?;
/// let now = GpsTime::new(1317, 0.5)?;
/// assert_eq!(now.nanos_since(before)?, 1_000_000_000);
/// assert_eq!(before.nanos_since(now)?, -1_000_000_000);
/// assert_eq!(now.seconds_since(before)?, 1.0);
///
/// // A time of week is below 604,800 s.
/// assert_eq!(GpsTime::new(1316, 604800.0), Err(Refusal::BadTime));
/// # Ok::<(), Refusal>(())
/// ```
#[derive(Clone, Copy, Debug, Default, PartialEq, Eq, PartialOrd, Ord, Hash)]
pub struct GpsTime {
    nanos: u64,
}

impl GpsTime {
    /// The start of week 0.
    pub const ZERO: Self = Self { nanos: 0 };

    /// Returns the time of so many nanoseconds since the start of week 0. Any number may be given: one
    /// past the start of week 15,001 is refused when it is used.
    pub const fn from_nanos(nanos: u64) -> Self {
        Self { nanos }
    }

    /// Returns the time of a GPS week, at most 15,000, and a time of week in seconds, from 0 to below
    /// 604,800, rounded to a whole nanosecond. One just below 604,800 s is the start of the next week.
    ///
    /// # Errors
    ///
    /// [`Refusal::BadTime`] if week or time of week is outside these bounds.
    pub fn new(week: u32, tow: f64) -> Result<Self, Refusal> {
        let mut nanos = 0;
        // SAFETY: the last is ours alone.
        answered(unsafe { sys::zaqnuti_time(week, tow, &mut nanos) })?;
        Ok(Self { nanos })
    }

    /// Returns the nanoseconds since the start of week 0.
    pub const fn nanos(self) -> u64 {
        self.nanos
    }

    /// Returns the exact nanoseconds from `earlier` to this time, negative if this time is earlier.
    ///
    /// # Errors
    ///
    /// [`Refusal::BadTime`] if either is past the start of week 15,001.
    pub fn nanos_since(self, earlier: Self) -> Result<i64, Refusal> {
        let mut nanos = 0;
        // SAFETY: the last is ours alone.
        answered(unsafe { sys::zaqnuti_nanos_since(self.nanos, earlier.nanos, &mut nanos) })?;
        Ok(nanos)
    }

    /// Returns the same in seconds: the whole number of nanoseconds as a double, divided by 1e9.
    ///
    /// # Errors
    ///
    /// Those of [`nanos_since`](Self::nanos_since).
    pub fn seconds_since(self, earlier: Self) -> Result<f64, Refusal> {
        let mut seconds = 0.0;
        // SAFETY: the last is ours alone.
        answered(unsafe { sys::zaqnuti_seconds_since(self.nanos, earlier.nanos, &mut seconds) })?;
        Ok(seconds)
    }
}
