//! The entry point of the line form.

use zaqnuti::sys::zaqnuti_line;

/// Writes the answer's line to the start of the buffer and its length to `written`. Returns 2 and
/// changes nothing where the buffer is shorter than the line.
#[inline]
pub fn line(text: &[u8], line: &mut [u8], written: &mut usize) -> u8 {
    // SAFETY: each pointer is given with its length, and the last two are ours alone.
    unsafe {
        zaqnuti_line(
            text.as_ptr(),
            text.len(),
            line.as_mut_ptr(),
            line.len(),
            written,
        )
    }
}
