//! Not published; no compared service uses it.

use super::Mat3;

/// Not published.
pub struct Quat;

impl Quat {
    /// Not published.
    pub fn from_dcm(_: &Mat3) -> Self {
        unimplemented!("quat.rs is not published")
    }
}
