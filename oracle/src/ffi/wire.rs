//! The entry points of carrier records as bytes.

use super::columns::call;
use zaqnuti::sys::{zaqnuti_displacement_records, zaqnuti_read_records, zaqnuti_write_records};

/// An epoch as columns, six patterns for each carrier; each may be longer or shorter than a count needs.
#[derive(Clone, Debug, Default, PartialEq)]
pub struct Records {
    pub constellation: Vec<u8>,
    pub svid: Vec<u16>,
    pub band: Vec<u32>,
    pub state: Vec<i32>,
    pub floats: Vec<u64>,
}

/// The records in the columns, their number in the last and 0, or the refusal's number and all untouched.
#[inline]
pub fn read_records(bytes: &[u8], columns: &mut Records, count: &mut usize) -> u8 {
    let c = columns;
    // SAFETY: each slice has its length beside it, and all but the bytes are ours alone.
    unsafe {
        zaqnuti_read_records(
            bytes.as_ptr(),
            bytes.len(),
            c.constellation.as_mut_ptr(),
            c.constellation.len(),
            c.svid.as_mut_ptr(),
            c.svid.len(),
            c.band.as_mut_ptr(),
            c.band.len(),
            c.state.as_mut_ptr(),
            c.state.len(),
            c.floats.as_mut_ptr(),
            c.floats.len(),
            count,
        )
    }
}

/// The first `count` records in the bytes and 0, or 2 and the bytes untouched.
#[inline]
pub fn write_records(columns: &Records, count: usize, bytes: &mut [u8]) -> u8 {
    let c = columns;
    // SAFETY: each slice has its length beside it, and the last is ours alone.
    unsafe {
        call!(zaqnuti_write_records();
            [c.constellation], [c.svid], [c.band], [c.state], [c.floats], count,
            bytes.as_mut_ptr(), bytes.len(),)
    }
}

/// The result in the last and 0, or the refusal's number and it untouched. The floats are dt, receiver 3, settings 5.
#[inline]
pub fn displacement_records(
    previous: &[u8],
    current: &[u8],
    floats: &[f64; 9],
    rounds: u32,
    result: &mut [u8],
) -> u8 {
    let [dt, x, y, z, screen, a, b, huber, mask] = *floats;
    // SAFETY: as there.
    unsafe {
        call!(zaqnuti_displacement_records();
            [previous], [current], dt, x, y, z, screen, a, b, huber, mask, rounds,
            result.as_mut_ptr(), result.len(),)
    }
}
