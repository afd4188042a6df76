//! Robust weighted least-squares position from raw pseudoranges.

use crate::refusal::answered;
use crate::{column, columns, sys, Ecef, Refusal};

/// One satellite's pseudorange at one epoch, already corrected.
#[derive(Clone, Copy, Debug, PartialEq)]
pub struct Observation {
    /// Constellation id.
    pub constellation: u8,
    /// Frequency band, not used by the fix.
    pub band: u32,
    /// Satellite id within its constellation, not used by the fix.
    pub svid: u16,
    /// Modelled delay already subtracted from `pseudorange`, metres, not used by the fix.
    pub modelled: f64,
    /// Pseudorange with every correction applied, metres.
    pub pseudorange: f64,
    /// Satellite position at transmission, ECEF metres.
    pub satellite: [f64; 3],
    /// Elevation above the horizon, degrees.
    pub elevation: f64,
}

/// Weighting and robustness settings.
#[derive(Clone, Copy, Debug, PartialEq)]
pub struct Settings {
    /// Constant term of `σ = a + b/sin(el)`, metres.
    pub sigma_a: f64,
    /// Elevation term of `σ = a + b/sin(el)`, metres.
    pub sigma_b: f64,
    /// Huber threshold, in robust sigmas.
    pub huber: f64,
    /// Satellites below this elevation are discarded, degrees.
    pub mask: f64,
    /// The most rounds, 1 to 50.
    pub iterations: usize,
}

impl Default for Settings {
    fn default() -> Self {
        Self {
            sigma_a: 0.3,
            sigma_b: 16.0,
            huber: 1.0,
            mask: 10.0,
            iterations: 25,
        }
    }
}

impl Settings {
    /// Returns what suited a geodetic receiver on a roof. The default suits a phone.
    pub const fn geodetic() -> Self {
        Self {
            sigma_a: 0.3,
            sigma_b: 0.3,
            huber: 1.5,
            mask: 10.0,
            iterations: 25,
        }
    }
}

/// A fix, with the quality of its fit.
#[derive(Clone, Copy, Debug, PartialEq)]
pub struct Solution {
    /// Receiver position, ECEF metres, finite.
    pub position: Ecef,
    /// Observations at or above the mask.
    pub used: usize,
    /// Root of the reduced chi-squared of the residuals at this position, finite.
    pub chi: f64,
    /// Position dilution of precision, finite.
    pub pdop: f64,
}

/// The columns of an epoch.
struct Columns {
    constellation: [u8; crate::RECORDS],
    floats: [[f64; 5]; crate::RECORDS],
    settings: [f64; 4],
}

impl Columns {
    fn of(observations: &[Observation], set: &Settings) -> Self {
        Self {
            constellation: column(observations, |o| o.constellation),
            floats: columns(observations, |o| {
                let [x, y, z] = o.satellite;
                [o.pseudorange, x, y, z, o.elevation]
            }),
            settings: [set.sigma_a, set.sigma_b, set.huber, set.mask],
        }
    }
}

/// Returns the receiver's position from one epoch, with the quality of the fit.
///
/// ```
/// use zaqnuti::wls::{solve_full, Observation, Settings};
/// use zaqnuti::{Ecef, Refusal};
///
/// // GPS over a station in Japan, 2005-04-02: svid, pseudorange, satellite, elevation.
/// let sky = [
///     (7, 24321128.9414, [10026487.6901, 18601864.0690, 16597421.8539], 16.1755),
///     (8, 23399829.5900, [-683949.7926, 26351230.7650, 79787.4804], 20.0771),
///     (11, 20374438.0990, [-14822915.6595, 8930208.3680, 20079386.0967], 69.4716),
///     (19, 22607777.4750, [-23358517.4998, -5407967.0045, 11505396.1790], 31.7452),
///     (20, 21543255.5857, [-23036169.0859, 13172079.7389, 766984.1650], 45.3946),
///     (24, 22278154.6066, [-4410870.9394, 25703724.4991, 4806330.1948], 34.8016),
///     (28, 21557461.4116, [-2383676.5779, 17483698.3984, 19982740.5748], 47.2315),
/// ]
/// .map(|(svid, pseudorange, satellite, elevation)| Observation {
///     constellation: 1,
///     band: 1,
///     svid,
///     modelled: 0.0,
///     pseudorange,
///     satellite,
///     elevation,
/// });
/// // From the centre of the earth.
/// let found = solve_full(&sky, Ecef::default(), &Settings::geodetic())?;
/// let truth = Ecef::new(-3976219.5082, 3382372.5671, 3652512.9849);
/// assert_eq!(found.used, 7);
/// assert!((found.position.x - truth.x).abs() < 2.0);
/// assert!((found.position.y - truth.y).abs() < 2.0);
/// assert!((found.position.z - truth.z).abs() < 2.0);
///
/// let four = solve_full(&sky[..4], truth, &Settings::geodetic());
/// assert_eq!(four.unwrap_err(), Refusal::TooFewRows);
/// # Ok::<(), Refusal>(())
/// ```
pub fn solve_full(
    observations: &[Observation],
    guess: Ecef,
    set: &Settings,
) -> Result<Solution, Refusal> {
    let c = Columns::of(observations, set);
    let floats = c.floats.as_flattened();
    let (mut solution, mut used) = ([0.0; 5], 0);
    // SAFETY: each column has its length beside it, and the last two are ours alone.
    let number = unsafe {
        sys::zaqnuti_fix(
            c.constellation.as_ptr(),
            c.constellation.len(),
            floats.as_ptr(),
            floats.len(),
            observations.len(),
            &guess.coordinates(),
            &c.settings,
            set.iterations,
            &mut solution,
            &mut used,
        )
    };
    answered(number)?;
    let [x, y, z, chi, pdop] = solution;
    Ok(Solution {
        position: Ecef::new(x, y, z),
        used,
        chi,
        pdop,
    })
}

/// Returns the position only, for callers that do not need the quality.
pub fn solve(observations: &[Observation], guess: Ecef, set: &Settings) -> Result<Ecef, Refusal> {
    let c = Columns::of(observations, set);
    let floats = c.floats.as_flattened();
    let mut position = [0.0; 3];
    // SAFETY: each column has its length beside it, and the last is ours alone.
    let number = unsafe {
        sys::zaqnuti_position(
            c.constellation.as_ptr(),
            c.constellation.len(),
            floats.as_ptr(),
            floats.len(),
            observations.len(),
            &guess.coordinates(),
            &c.settings,
            set.iterations,
            &mut position,
        )
    };
    answered(number)?;
    let [x, y, z] = position;
    Ok(Ecef::new(x, y, z))
}
