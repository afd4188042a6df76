//! The entry points of times.

use zaqnuti::sys::{zaqnuti_nanos_since, zaqnuti_seconds_since, zaqnuti_time};

/// The time in the last and 0, or 13 and it untouched.
#[inline]
pub fn time(week: u32, tow: f64, nanos: &mut u64) -> u8 {
    // SAFETY: the last is ours alone.
    unsafe { zaqnuti_time(week, tow, nanos) }
}

/// The nanoseconds between two times in the last and 0, or 13 and it untouched.
#[inline]
pub fn nanos_since(later: u64, earlier: u64, nanos: &mut i64) -> u8 {
    // SAFETY: the last is ours alone.
    unsafe { zaqnuti_nanos_since(later, earlier, nanos) }
}

/// The seconds between two times in the last and 0, or 13 and it untouched.
#[inline]
pub fn seconds_since(later: u64, earlier: u64, seconds: &mut f64) -> u8 {
    // SAFETY: the last is ours alone.
    unsafe { zaqnuti_seconds_since(later, earlier, seconds) }
}
