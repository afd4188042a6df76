//! The displacement of a text in the line form, answered by a line.

use crate::{sys, LINE};

/// An answer line with its LF: `A,used,screened,dx,dy,dz` or `R,number`.
#[derive(Clone, Copy, Debug, PartialEq, Eq)]
pub struct Line {
    bytes: [u8; LINE],
    length: usize,
}

impl Line {
    /// Returns its bytes, all of them ASCII.
    pub fn as_bytes(&self) -> &[u8] {
        &self.bytes[..self.length]
    }
}

/// Answers a text of `S`, `P` and `C` lines.
///
/// A text above [`TEXT`](crate::TEXT) bytes, or one that breaks the form, is answered by `R,1`.
///
/// ```
/// assert_eq!(zaqnuti::line::answer(b"S,1\n").as_bytes(), b"R,1\n");
/// ```
pub fn answer(text: &[u8]) -> Line {
    let mut bytes = [0; LINE];
    let mut length = 0;
    // SAFETY: each pointer has its length beside it, and the line and its length are ours alone.
    // `LINE` bytes are always enough, so that the call isn't refused.
    unsafe {
        sys::zaqnuti_line(
            text.as_ptr(),
            text.len(),
            bytes.as_mut_ptr(),
            bytes.len(),
            &mut length,
        )
    };
    Line { bytes, length }
}
