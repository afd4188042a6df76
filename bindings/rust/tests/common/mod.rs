//! A made-up sky, so that answers are known.
#![allow(dead_code)]

use zaqnuti::robust::geometry;
use zaqnuti::tdcp::{Carrier, Settings};
use zaqnuti::wls::Observation;
use zaqnuti::Ecef;

/// Where the receiver is.
pub const AT: Ecef = Ecef::new(-2694045.0, -4266427.0, 3888311.0);

/// The constellation, the place and the elevation of satellite i, spread over the sky by the golden angle.
pub fn satellite(i: usize) -> (u8, [f64; 3], f64) {
    let constellation = 1 + (i % 6) as u8;
    let elevation = 15.0 + (i * 37 % 70) as f64;
    let (azimuth, height) = (2.399963 * i as f64, elevation.to_radians());
    let r = (AT.x * AT.x + AT.y * AT.y + AT.z * AT.z).sqrt();
    let up = [AT.x / r, AT.y / r, AT.z / r];
    let flat = up[0].hypot(up[1]);
    let east = [-up[1] / flat, up[0] / flat, 0.0];
    let north = [-up[2] * east[1], up[2] * east[0], flat];
    let place = std::array::from_fn(|k| {
        let level = azimuth.cos() * north[k] + azimuth.sin() * east[k];
        AT.coordinates()[k] + 2.2e7 * (height.sin() * up[k] + height.cos() * level)
    });
    (constellation, place, elevation)
}

/// What a fix at `AT` would see of n satellites, with a clock for each constellation.
pub fn observations(n: usize) -> Vec<Observation> {
    let one = |i| {
        let (constellation, satellite, elevation) = satellite(i);
        Observation {
            constellation,
            band: 1,
            svid: i as u16,
            modelled: f64::NAN,
            pseudorange: geometry(satellite, AT).expect("it is seen").1
                + 40.0 * f64::from(constellation),
            satellite,
            elevation,
        }
    };
    (0..n).map(one).collect()
}

/// What a receiver at `at` would see of n satellites.
pub fn carriers(n: usize, at: Ecef) -> Vec<Carrier> {
    let one = |i| {
        let (constellation, satellite, elevation) = satellite(i);
        Carrier {
            constellation,
            svid: i as u16,
            band: 1575,
            adr: geometry(satellite, at).expect("it is seen").1,
            state: 1,
            satellite,
            elevation,
            rate: 0.0,
        }
    };
    (0..n).map(one).collect()
}

/// The text of a displacement over one second from `AT`, in the line form.
pub fn text(previous: &[Carrier], current: &[Carrier], set: &Settings) -> Vec<u8> {
    let hex = |floats: &[f64]| {
        let fields = floats.iter().map(|x| format!("{:016X}", x.to_bits()));
        fields.collect::<Vec<_>>().join(",")
    };
    let carrier = |letter: &str, c: &Carrier| {
        let [x, y, z] = c.satellite;
        let (adr, floats) = (hex(&[c.adr]), hex(&[x, y, z, c.elevation, c.rate]));
        let signal = format!("{},{},{}", c.constellation, c.svid, c.band);
        format!("{letter},{signal},{adr},{},{floats}\n", c.state)
    };
    let settings = [set.screen, set.sigma_a, set.sigma_b, set.huber, set.mask];
    let [place, settings] = [hex(&AT.coordinates()), hex(&settings)];
    let mut out = format!("S,{},{place},{settings},{}\n", hex(&[1.0]), set.iterations);
    out.extend(previous.iter().map(|c| carrier("P", c)));
    out.extend(current.iter().map(|c| carrier("C", c)));
    out.into_bytes()
}
