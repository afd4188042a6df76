//! North, east, down.

use super::sys;
use crate::fuzz::lent::Lender;
use crate::fuzz::Bytes;
use crate::services::directions::model;

/// Three floats: as they come, next to the earth's axis, or of a place on the earth.
fn vector(b: &mut Bytes) -> [f64; 3] {
    let v = b.three();
    match b.byte() {
        0..=29 => [v[0] * 1e-18, v[1] * 1e-18, v[2]],
        30..=129 => v.map(|x| x % 7e6),
        130..=149 => [v[0] % 1e5, 0.0, 0.0],
        _ => v,
    }
}

pub fn directions(b: &mut Bytes) {
    b.plain_above(127);
    let (at, by) = (vector(b), vector(b));
    let mut lender = Lender::new();
    let position = lender.lend(&[at]);
    let displacement = lender.lend(&[by]);
    let ned = lender.lend(&[[f64::from_bits(b.u64()); 3]]);
    // SAFETY: each pointer leads to three floats.
    let number =
        unsafe { sys::zaqnuti_north_east_down(position.at(), displacement.at(), ned.at()) };
    match model(&at, &by) {
        Ok(expected) => {
            assert_eq!(number, 0);
            ned.holds(&[expected]);
        }
        Err(refusal) => {
            assert_eq!(number, refusal);
            ned.kept();
        }
    }
    position.kept();
    displacement.kept();
}
