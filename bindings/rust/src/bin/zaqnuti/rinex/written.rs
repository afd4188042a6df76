//! Fast output of CSV lines.

use crate::atmosphere::Sky;

use super::place::Sight;
use super::time::Moment;

/// The header line.
pub const HEADER: &str = "week,tow,constellation,svid,band,pseudorange,carrier,state,\
    x,y,z,vx,vy,vz,clock,modelled,ionosphere,elevation,rate,rx,ry,rz";

/// Writes the digits of a number before index `at`, padded to `least`. Returns where they begin.
fn digits(buffer: &mut [u8; 24], mut at: usize, mut n: u64, least: usize) -> usize {
    let stop = at - least;
    while n >= 100 || at >= stop + 2 {
        let pair = (n % 100) as u8;
        at -= 2;
        buffer[at] = b'0' + pair / 10;
        buffer[at + 1] = b'0' + pair % 10;
        n /= 100;
    }
    while n > 0 || at > stop {
        at -= 1;
        buffer[at] = b'0' + (n % 10) as u8;
        n /= 10;
    }
    at
}

/// Appends a whole number.
fn whole(out: &mut Vec<u8>, n: u64) {
    let mut buffer = [0; 24];
    let start = digits(&mut buffer, 24, n, 1);
    out.extend_from_slice(&buffer[start..]);
}

/// Appends a number with a fixed number of decimal places, or `NaN`.
fn fixed<const PLACES: u32>(out: &mut Vec<u8>, x: f64) {
    let tens = const { 10_u64.pow(PLACES) };
    let scaled = x * tens as f64;
    if scaled.is_nan() || scaled.abs() >= 9e15 {
        out.extend_from_slice(b"NaN");
        return;
    }
    // Adding a half and truncating rounds to nearest.
    let n = (scaled.abs() + 0.5) as u64;
    let mut buffer = [0; 24];
    let point = digits(&mut buffer, 24, n % tens, PLACES as usize) - 1;
    buffer[point] = b'.';
    let mut start = digits(&mut buffer, point, n / tens, 1);
    if x < 0.0 && n > 0 {
        start -= 1;
        buffer[start] = b'-';
    }
    out.extend_from_slice(&buffer[start..]);
}

/// Appends week and time of week, without trailing zeros.
fn time(out: &mut Vec<u8>, at: Moment) {
    let (week, ticks) = at.ticks();
    whole(out, week.unsigned_abs());
    out.push(b',');
    whole(out, ticks.unsigned_abs() / 10_000_000);
    let behind = ticks.unsigned_abs() % 10_000_000;
    out.push(b'.');
    let digits = format_args!("{behind:07}").to_string();
    let digits = digits.trim_end_matches('0');
    out.extend(if digits.is_empty() {
        b"0"
    } else {
        digits.as_bytes()
    });
}

/// The fields that all lines of an epoch share: the time, and the receiver's position.
pub struct Frame {
    time: Vec<u8>,
    place: Vec<u8>,
}

impl Frame {
    /// Formats a time and a position.
    pub fn new(at: Moment, sky: &Sky) -> Self {
        let (mut front, mut place) = (Vec::new(), Vec::new());
        time(&mut front, at);
        for x in sky.place {
            place.push(b',');
            fixed::<4>(&mut place, x);
        }
        place.push(b'\n');
        Self { time: front, place }
    }
}

/// The carrier fields of a line.
pub struct Carrier {
    pub metres: f64,
    pub state: u8,
    /// The range rate, and whether it includes the receiver's motion.
    pub rate: f64,
    pub known: bool,
}

/// Appends the line of a signal.
pub fn line(out: &mut Vec<u8>, frame: &Frame, sight: &Sight, carrier: &Carrier) {
    out.extend_from_slice(&frame.time);
    let satellite = sight.signal.satellite;
    let wholes = [
        u64::from(satellite.system.constellation()),
        u64::from(satellite.number),
        u64::from(sight.band.megahertz()),
    ];
    for n in wholes {
        out.push(b',');
        whole(out, n);
    }
    let ranges = [sight.signal.pseudorange - sight.delay, carrier.metres];
    floats::<4>(out, &ranges);
    out.push(b',');
    whole(out, u64::from(carrier.state));
    floats::<4>(out, &sight.state.place);
    floats::<5>(out, &sight.state.velocity);
    let modelled = sight.ionosphere + sight.troposphere;
    let elevation = sight.to.elevation.to_degrees();
    let rest = [
        sight.clock,
        modelled,
        sight.ionosphere,
        elevation,
        carrier.rate,
    ];
    floats::<4>(out, &rest);
    out.extend_from_slice(&frame.place);
}

/// Appends numbers, each after a comma.
fn floats<const PLACES: u32>(out: &mut Vec<u8>, numbers: &[f64]) {
    for x in numbers {
        out.push(b',');
        fixed::<PLACES>(out, *x);
    }
}

#[cfg(test)]
mod tests {
    use super::*;

    #[test]
    fn decimals_are_those_of_the_standard_library() {
        for x in [
            0.0,
            1.5,
            -2.25,
            24_767_687.631_4,
            -10_320_589.582_4,
            0.0004,
            99.99996,
            1e9,
        ] {
            let mut out = Vec::new();
            fixed::<4>(&mut out, x);
            assert_eq!(out, format!("{x:.4}").as_bytes(), "{x}");
        }
        let mut out = Vec::new();
        fixed::<4>(&mut out, f64::NAN);
        fixed::<4>(&mut out, 1e300);
        assert_eq!(out, b"NaNNaN");
        out.clear();
        // Zero has no sign.
        fixed::<4>(&mut out, -0.00004);
        assert_eq!(out, b"0.0000");
    }

    #[test]
    fn times_end_without_zeros() {
        let shown = |rest: f64| {
            let mut out = Vec::new();
            time(&mut out, Moment::of_week(1316, 518_400.0).plus(rest));
            out
        };
        assert_eq!(shown(0.0), b"1316,518400.0");
        assert_eq!(shown(0.001), b"1316,518400.001");
        assert_eq!(shown(30.000_000_1), b"1316,518430.0000001");
        assert_eq!(shown(86_400.0), b"1317,0.0");
    }
}
