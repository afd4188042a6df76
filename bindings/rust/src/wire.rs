//! Carrier records as the firmware keeps and sends them: 59 bytes each, little-endian.
//!
//! | bytes | holds |
//! |---|---|
//! | 1 | constellation |
//! | 2 | svid |
//! | 4 | band |
//! | 8 | adr |
//! | 4 | state |
//! | 24 | satellite |
//! | 8 | elevation |
//! | 8 | rate |
//!
//! Reading a written epoch yields its records, and writing a read epoch yields its bytes, sign and
//! payload of NaNs included.

use alloc::vec::Vec;

use crate::refusal::answered;
use crate::tdcp::{Carrier, Delta, Settings};
use crate::{column, sys, Ecef, Refusal, Vec3, RECORDS};

/// The bytes of a carrier record.
pub const RECORD: usize = 59;
/// The bytes of the result of a displacement.
pub const RESULT: usize = 40;

/// The columns of an epoch, each float as its bits.
struct Columns {
    constellation: [u8; RECORDS],
    svid: [u16; RECORDS],
    band: [u32; RECORDS],
    state: [i32; RECORDS],
    floats: [[u64; 6]; RECORDS],
}

impl Columns {
    fn of(carriers: &[Carrier]) -> Self {
        Self {
            constellation: column(carriers, |c| c.constellation),
            svid: column(carriers, |c| c.svid),
            band: column(carriers, |c| c.band),
            state: column(carriers, |c| c.state),
            floats: column(carriers, |c| {
                let [x, y, z] = c.satellite;
                [c.adr, x, y, z, c.elevation, c.rate].map(f64::to_bits)
            }),
        }
    }

    fn carrier(&self, place: usize) -> Carrier {
        let [adr, x, y, z, elevation, rate] = self.floats[place].map(f64::from_bits);
        Carrier {
            constellation: self.constellation[place],
            svid: self.svid[place],
            band: self.band[place],
            adr,
            state: self.state[place],
            satellite: [x, y, z],
            elevation,
            rate,
        }
    }
}

/// Returns the records of an epoch as bytes.
///
/// # Errors
///
/// [`Refusal::TooMany`] if there are more than 64.
///
/// ```
/// use zaqnuti::tdcp::Carrier;
/// use zaqnuti::{wire, Refusal};
///
/// let carrier = Carrier {
///     constellation: 1,
///     svid: 0x0203,
///     band: 1575,
///     adr: -172322.1098,
///     state: 1,
///     satellite: [10026487.6901, 18601864.0690, 16597421.8539],
///     elevation: 16.1755,
///     rate: -486.0847,
/// };
/// let sent = wire::write(&[carrier; 3])?;
/// assert_eq!(sent.len(), 3 * wire::RECORD);
/// assert_eq!(sent[..7], [1, 0x03, 0x02, 0x27, 0x06, 0, 0]);
/// assert_eq!(wire::read(&sent)?, [carrier; 3]);
///
/// // One byte is lost.
/// assert_eq!(wire::read(&sent[1..]), Err(Refusal::BrokenRecords));
/// # Ok::<(), Refusal>(())
/// ```
pub fn write(carriers: &[Carrier]) -> Result<Vec<u8>, Refusal> {
    let c = Columns::of(carriers);
    let floats = c.floats.as_flattened();
    let mut bytes = alloc::vec![0; RECORD * carriers.len().min(RECORDS)];
    // SAFETY: each column has its length beside it, and the last is ours alone.
    answered(unsafe {
        sys::zaqnuti_write_records(
            c.constellation.as_ptr(),
            c.constellation.len(),
            c.svid.as_ptr(),
            c.svid.len(),
            c.band.as_ptr(),
            c.band.len(),
            c.state.as_ptr(),
            c.state.len(),
            floats.as_ptr(),
            floats.len(),
            carriers.len(),
            bytes.as_mut_ptr(),
            bytes.len(),
        )
    })?;
    Ok(bytes)
}

/// Returns the records in some bytes.
///
/// # Errors
///
/// [`Refusal::BrokenRecords`] if the length is not a multiple of 59, then [`Refusal::TooMany`] if there
/// are more than 64 records.
pub fn read(bytes: &[u8]) -> Result<Vec<Carrier>, Refusal> {
    let mut c = Columns::of(&[]);
    let floats = c.floats.as_flattened_mut();
    let mut count = 0;
    // SAFETY: each column has its length beside it, and all but the bytes are ours alone.
    answered(unsafe {
        sys::zaqnuti_read_records(
            bytes.as_ptr(),
            bytes.len(),
            c.constellation.as_mut_ptr(),
            c.constellation.len(),
            c.svid.as_mut_ptr(),
            c.svid.len(),
            c.band.as_mut_ptr(),
            c.band.len(),
            c.state.as_mut_ptr(),
            c.state.len(),
            floats.as_mut_ptr(),
            floats.len(),
            &mut count,
        )
    })?;
    Ok((0..count).map(|place| c.carrier(place)).collect())
}

/// Returns the receiver's position change between two epochs of bytes, `dt` seconds apart: that of
/// [`delta_position`](crate::tdcp::delta_position) on the records that [`read`] yields.
///
/// # Errors
///
/// [`Refusal::BrokenRecords`] if either length is not a multiple of 59, then those of that call.
pub fn delta_position(
    previous: &[u8],
    current: &[u8],
    dt: f64,
    at: Ecef,
    set: &Settings,
) -> Result<Delta, Refusal> {
    let mut result = [0; RESULT];
    // Every count of rounds above 50 is refused alike.
    let rounds = set.iterations.min(51) as u32;
    // SAFETY: each slice has its length beside it, and the last is ours alone.
    answered(unsafe {
        sys::zaqnuti_displacement_records(
            previous.as_ptr(),
            previous.len(),
            current.as_ptr(),
            current.len(),
            dt,
            at.x,
            at.y,
            at.z,
            set.screen,
            set.sigma_a,
            set.sigma_b,
            set.huber,
            set.mask,
            rounds,
            result.as_mut_ptr(),
            result.len(),
        )
    })?;
    let word = |place: usize| {
        let mut eight = [0; 8];
        eight.copy_from_slice(&result[8 * place..8 * place + 8]);
        u64::from_le_bytes(eight)
    };
    let [x, y, z] = [2, 3, 4].map(|place| f64::from_bits(word(place)));
    Ok(Delta {
        delta: Vec3::new(x, y, z),
        used: word(0) as usize,
        screened: word(1) as usize,
    })
}
