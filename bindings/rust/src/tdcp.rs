//! Position change between two epochs from time-differenced carrier phase.

use crate::mileage::{predicted_error, Moved};
use crate::refusal::answered;
use crate::time::GpsTime;
use crate::{column, columns, sys, Ecef, Refusal, Vec3, RECORDS};

/// One satellite signal's carrier observation at one epoch.
#[derive(Clone, Copy, Debug, PartialEq)]
pub struct Carrier {
    /// Constellation id.
    pub constellation: u8,
    /// Satellite id within its constellation.
    pub svid: u16,
    /// Carrier frequency in MHz, rounded.
    pub band: u32,
    /// Accumulated delta range, metres; one that is not finite makes the carrier unusable.
    pub adr: f64,
    /// State bits: 1 valid, 2 cycle slip, 4 reset.
    pub state: i32,
    /// Satellite position at transmission, ECEF metres.
    pub satellite: [f64; 3],
    /// Elevation above the horizon, degrees.
    pub elevation: f64,
    /// Pseudorange rate plus satellite clock drift, m/s, positive receding.
    pub rate: f64,
}

/// Weighting, screening and robustness settings.
#[derive(Clone, Copy, Debug, PartialEq)]
pub struct Settings {
    /// A pair whose detector lies this many metres or more off the detectors' centre is dropped.
    pub screen: f64,
    /// Constant term of `σ = a + b/sin(el)`, metres.
    pub sigma_a: f64,
    /// Elevation term of `σ = a + b/sin(el)`, metres.
    pub sigma_b: f64,
    /// Huber threshold, in robust sigmas.
    pub huber: f64,
    /// Satellites below this elevation are discarded, degrees.
    pub mask: f64,
    /// The most rounds, at most 50; 0 gives the displacement zero.
    pub iterations: usize,
    /// Neither read nor checked.
    pub agreement: f64,
}

impl Default for Settings {
    fn default() -> Self {
        Self {
            screen: 0.5,
            sigma_a: 0.008,
            sigma_b: 0.002,
            huber: 1.5,
            mask: 10.0,
            iterations: 4,
            agreement: 3.0,
        }
    }
}

impl Settings {
    /// Returns what suited a geodetic receiver on a roof at 30 s, over which the mean of two rates is
    /// rough. The default suits a phone at one second.
    pub const fn geodetic() -> Self {
        Self {
            screen: 2.0,
            sigma_a: 0.008,
            sigma_b: 0.002,
            huber: 1.5,
            mask: 10.0,
            iterations: 4,
            agreement: 3.0,
        }
    }

    /// Returns its floats, as the entry points take them.
    pub(crate) const fn floats(&self) -> [f64; 5] {
        [
            self.screen,
            self.sigma_a,
            self.sigma_b,
            self.huber,
            self.mask,
        ]
    }
}

/// The displacement of a pair of epochs.
#[derive(Clone, Copy, Debug, PartialEq)]
pub struct Delta {
    /// Position change over the interval, ECEF metres, finite.
    pub delta: Vec3,
    /// Satellite pairs that survived screening and were used.
    pub used: usize,
    /// Pairs discarded by the screen.
    pub screened: usize,
}

/// A displacement with the quality of its fit.
///
/// A displacement from few or badly placed satellites is accepted like any other; these two figures
/// reveal it. [`Rated::predicted_error`] combines them.
#[derive(Clone, Copy, Debug, PartialEq)]
pub struct Rated {
    /// The displacement.
    pub moved: Delta,
    /// The root of the mean squared residual of the pairs used, in units of sigma: about 1 if the
    /// carriers agree as well as sigma says, more if one slips. Finite.
    pub chi: f64,
    /// The dilution of precision: how much the geometry of the satellites enlarges an error of the
    /// carriers, about 1 to 3 under an open sky. Finite.
    pub pdop: f64,
}

impl Rated {
    /// Returns the predicted error in metres, `(pdop * max(chi, 1)) * 0.01`.
    ///
    /// In a study of 300 simulated van-days, setting aside displacements at or above 0.5, 0.2 and
    /// 0.1 m lost 0.3, 1.6 and 4.0 % of the moving ones and removed 84, 96 and 99 % of the errors
    /// above a metre. Setting them aside without scaling by coverage makes a distance worse; a
    /// [mileage](crate::mileage) scales.
    pub fn predicted_error(&self) -> f64 {
        predicted_error(self.chi, self.pdop)
    }
}

/// The form in which a mileage adds it.
impl From<Rated> for Moved {
    fn from(rated: Rated) -> Self {
        Self {
            displacement: rated.moved.delta,
            chi: rated.chi,
            pdop: rated.pdop,
        }
    }
}

/// What a call writes.
#[derive(Default)]
pub(crate) struct Lent {
    pub(crate) delta: [f64; 3],
    pub(crate) counts: [usize; 2],
}

impl Lent {
    pub(crate) fn answer(self, number: u8) -> Result<Delta, Refusal> {
        answered(number)?;
        let ([x, y, z], [used, screened]) = (self.delta, self.counts);
        Ok(Delta {
            delta: Vec3::new(x, y, z),
            used,
            screened,
        })
    }
}

/// The columns of an epoch.
pub(crate) struct Columns {
    pub(crate) constellation: [u8; RECORDS],
    pub(crate) svid: [u16; RECORDS],
    pub(crate) band: [u32; RECORDS],
    pub(crate) state: [i32; RECORDS],
    pub(crate) floats: [[f64; 6]; RECORDS],
}

impl Columns {
    pub(crate) fn of(carriers: &[Carrier]) -> Self {
        Self {
            constellation: column(carriers, |c| c.constellation),
            svid: column(carriers, |c| c.svid),
            band: column(carriers, |c| c.band),
            state: column(carriers, |c| c.state),
            floats: columns(carriers, |c| {
                let [x, y, z] = c.satellite;
                [c.adr, x, y, z, c.elevation, c.rate]
            }),
        }
    }
}

/// Returns the receiver's position change from the previous epoch to the current one, `dt` seconds later.
///
/// `at` is where the receiver was at the earlier epoch.
///
/// ```
/// use zaqnuti::tdcp::{delta_position, Carrier, Settings};
/// use zaqnuti::{Ecef, Refusal};
///
/// let carrier = |(svid, adr, satellite, elevation, rate)| Carrier {
///     constellation: 1,
///     svid,
///     band: 1575,
///     adr,
///     state: 1,
///     satellite,
///     elevation,
///     rate,
/// };
/// // A fixed station, 2005-04-02: svid, carrier, satellite, elevation, rate.
/// let previous = [
///     (7, -172322.1098, [10026487.6901, 18601864.0690, 16597421.8539], 16.1755, -486.0847),
///     (8, 3414794.9918, [-683949.7926, 26351230.7650, 79787.4804], 20.0771, 469.9015),
///     (11, 1530559.3591, [-14822915.6595, 8930208.3680, 20079386.0967], 69.4716, 204.4422),
///     (19, 6983136.4300, [-23358517.4998, -5407967.0045, 11505396.1790], 31.7452, 377.2273),
///     (20, -1119453.1766, [-23036169.0859, 13172079.7389, 766984.1650], 45.3946, -512.0204),
///     (24, -434512.5769, [-4410870.9394, 25703724.4991, 4806330.1948], 34.8016, -424.6083),
///     (28, -1022706.7203, [-2383676.5779, 17483698.3984, 19982740.5748], 47.2315, -410.9072),
/// ]
/// .map(carrier);
/// let current = [
///     (7, -174364.2447, [9968998.0205, 18580402.4659, 16657076.4539], 16.3293, -486.2937),
///     (8, 3441460.0763, [-692717.6235, 26351720.7446, -16652.0015], 19.9352, 471.5250),
///     (11, 1549264.3208, [-14837010.3040, 8853752.5973, 20103371.4909], 69.2833, 206.3201),
///     (19, 7007012.7694, [-23391018.9750, -5437403.4416, 11424432.3600], 31.6030, 378.2940),
///     (20, -1122232.9772, [-23037585.5171, 13163117.7662, 862296.7776], 45.6290, -509.5355),
///     (24, -434678.4062, [-4418297.9855, 25685818.1622, 4899815.0556], 34.9773, -422.6873),
///     (28, -1022449.8655, [-2450535.3896, 17517541.8337, 19943544.4509], 47.4114, -408.2052),
/// ]
/// .map(carrier);
/// let at = Ecef::new(-3976219.5082, 3382372.5671, 3652512.9849);
/// let moved = delta_position(&previous, &current, 30.0, at, &Settings::geodetic())?;
/// assert_eq!((moved.used, moved.screened), (7, 0));
/// let length = (moved.delta.x.powi(2) + moved.delta.y.powi(2) + moved.delta.z.powi(2)).sqrt();
/// assert!(length < 0.1);
///
/// let few = delta_position(&previous[..5], &current, 30.0, at, &Settings::geodetic());
/// assert_eq!(few.unwrap_err(), Refusal::TooFewPairs);
/// # Ok::<(), Refusal>(())
/// ```
pub fn delta_position(
    previous: &[Carrier],
    current: &[Carrier],
    dt: f64,
    at: Ecef,
    set: &Settings,
) -> Result<Delta, Refusal> {
    let (p, c) = (Columns::of(previous), Columns::of(current));
    let (pf, cf) = (p.floats.as_flattened(), c.floats.as_flattened());
    let mut lent = Lent::default();
    // SAFETY: each column has its length beside it, and the last two are ours alone.
    let number = unsafe {
        sys::zaqnuti_displacement(
            p.constellation.as_ptr(),
            p.constellation.len(),
            p.svid.as_ptr(),
            p.svid.len(),
            p.band.as_ptr(),
            p.band.len(),
            p.state.as_ptr(),
            p.state.len(),
            pf.as_ptr(),
            pf.len(),
            previous.len(),
            c.constellation.as_ptr(),
            c.constellation.len(),
            c.svid.as_ptr(),
            c.svid.len(),
            c.band.as_ptr(),
            c.band.len(),
            c.state.as_ptr(),
            c.state.len(),
            cf.as_ptr(),
            cf.len(),
            current.len(),
            dt,
            &at.coordinates(),
            &set.floats(),
            set.iterations,
            &mut lent.delta,
            &mut lent.counts,
        )
    };
    lent.answer(number)
}

/// Returns the receiver's position change between two epochs by their times: that of
/// [`delta_position`] with the seconds from `previous_time` to `current_time`, across the end of a
/// week too.
///
/// A time past the start of week 15,001 is refused by [`Refusal::BadTime`], after the settings and
/// the records are checked.
///
/// ```
/// use zaqnuti::tdcp::{delta_position, delta_position_between, Carrier, Settings};
/// use zaqnuti::time::GpsTime;
/// use zaqnuti::{Ecef, Refusal};
///
/// # let satellites = [
/// #     [10026487.6901, 18601864.0690, 16597421.8539],
/// #     [-683949.7926, 26351230.7650, 79787.4804],
/// #     [-14822915.6595, 8930208.3680, 20079386.0967],
/// #     [-23358517.4998, -5407967.0045, 11505396.1790],
/// #     [-23036169.0859, 13172079.7389, 766984.1650],
/// #     [-4410870.9394, 25703724.4991, 4806330.1948],
/// #     [-2383676.5779, 17483698.3984, 19982740.5748],
/// # ];
/// # let epoch: Vec<Carrier> = (0..7)
/// #     .map(|k| Carrier {
/// #         constellation: 1,
/// #         svid: k as u16,
/// #         band: 1575,
/// #         adr: 1e6 * k as f64,
/// #         state: 1,
/// #         satellite: satellites[k],
/// #         elevation: 45.0,
/// #         rate: 0.0,
/// #     })
/// #     .collect();
/// # let (previous, current) = (epoch.clone(), epoch);
/// # let at = Ecef::new(-3976219.5082, 3382372.5671, 3652512.9849);
/// // The last half second of Saturday, and the first of Sunday.
/// let before = GpsTime::new(1316, 604799.5)?;
/// let now = GpsTime::new(1317, 0.5)?;
/// let set = Settings::default();
/// let moved = delta_position_between(&previous, &current, before, now, at, &set)?;
/// assert_eq!(moved, delta_position(&previous, &current, 1.0, at, &set)?);
///
/// let back = delta_position_between(&previous, &current, now, before, at, &set);
/// assert_eq!(back.unwrap_err(), Refusal::BadInterval);
/// # Ok::<(), Refusal>(())
/// ```
pub fn delta_position_between(
    previous: &[Carrier],
    current: &[Carrier],
    previous_time: GpsTime,
    current_time: GpsTime,
    at: Ecef,
    set: &Settings,
) -> Result<Delta, Refusal> {
    let (p, c) = (Columns::of(previous), Columns::of(current));
    let (pf, cf) = (p.floats.as_flattened(), c.floats.as_flattened());
    let mut lent = Lent::default();
    // SAFETY: each column has its length beside it, and the last two are ours alone.
    let number = unsafe {
        sys::zaqnuti_displacement_between(
            p.constellation.as_ptr(),
            p.constellation.len(),
            p.svid.as_ptr(),
            p.svid.len(),
            p.band.as_ptr(),
            p.band.len(),
            p.state.as_ptr(),
            p.state.len(),
            pf.as_ptr(),
            pf.len(),
            previous.len(),
            c.constellation.as_ptr(),
            c.constellation.len(),
            c.svid.as_ptr(),
            c.svid.len(),
            c.band.as_ptr(),
            c.band.len(),
            c.state.as_ptr(),
            c.state.len(),
            cf.as_ptr(),
            cf.len(),
            current.len(),
            previous_time.nanos(),
            current_time.nanos(),
            &at.coordinates(),
            &set.floats(),
            set.iterations,
            &mut lent.delta,
            &mut lent.counts,
        )
    };
    lent.answer(number)
}

/// Returns the receiver's position change in the city profile: that of [`delta_position`] with only
/// the carriers of GPS (1) and Galileo (6) on one band, in their order.
///
/// Refused by [`Refusal::NotCertified`] if the kept pairs lack one of the two. Every carrier given is
/// checked, used or not.
pub fn city_displacement(
    previous: &[Carrier],
    current: &[Carrier],
    dt: f64,
    band: u32,
    at: Ecef,
    set: &Settings,
) -> Result<Delta, Refusal> {
    let (p, c) = (Columns::of(previous), Columns::of(current));
    let (pf, cf) = (p.floats.as_flattened(), c.floats.as_flattened());
    let mut lent = Lent::default();
    // SAFETY: each column has its length beside it, and the last two are ours alone.
    let number = unsafe {
        sys::zaqnuti_city_displacement(
            p.constellation.as_ptr(),
            p.constellation.len(),
            p.svid.as_ptr(),
            p.svid.len(),
            p.band.as_ptr(),
            p.band.len(),
            p.state.as_ptr(),
            p.state.len(),
            pf.as_ptr(),
            pf.len(),
            previous.len(),
            c.constellation.as_ptr(),
            c.constellation.len(),
            c.svid.as_ptr(),
            c.svid.len(),
            c.band.as_ptr(),
            c.band.len(),
            c.state.as_ptr(),
            c.state.len(),
            cf.as_ptr(),
            cf.len(),
            current.len(),
            dt,
            band,
            &at.coordinates(),
            &set.floats(),
            set.iterations,
            &mut lent.delta,
            &mut lent.counts,
        )
    };
    lent.answer(number)
}

/// Returns the displacement of [`delta_position`] with the quality of its fit.
///
/// Refused as that is; then by [`Refusal::FitFailed`] if the unweighted equations have no factor, and
/// by [`Refusal::QualityNotFinite`] if `chi` or `pdop` is not finite.
///
/// ```
/// use zaqnuti::mileage::{Epoch, Mileage};
/// use zaqnuti::tdcp::{delta_position, delta_position_rated, Carrier, Settings};
/// use zaqnuti::{Ecef, Refusal};
///
/// # let satellites = [
/// #     [10026487.6901, 18601864.0690, 16597421.8539],
/// #     [-683949.7926, 26351230.7650, 79787.4804],
/// #     [-14822915.6595, 8930208.3680, 20079386.0967],
/// #     [-23358517.4998, -5407967.0045, 11505396.1790],
/// #     [-23036169.0859, 13172079.7389, 766984.1650],
/// #     [-4410870.9394, 25703724.4991, 4806330.1948],
/// #     [-2383676.5779, 17483698.3984, 19982740.5748],
/// # ];
/// # let epoch: Vec<Carrier> = (0..7)
/// #     .map(|k| Carrier {
/// #         constellation: 1,
/// #         svid: k as u16,
/// #         band: 1575,
/// #         adr: 1e6 * k as f64,
/// #         state: 1,
/// #         satellite: satellites[k],
/// #         elevation: 45.0,
/// #         rate: 0.0,
/// #     })
/// #     .collect();
/// # let (previous, current) = (epoch.clone(), epoch);
/// # let at = Ecef::new(-3976219.5082, 3382372.5671, 3652512.9849);
/// let set = Settings::default();
/// let rated = delta_position_rated(&previous, &current, 1.0, at, &set)?;
/// assert_eq!(rated.moved, delta_position(&previous, &current, 1.0, at, &set)?);
/// assert!(rated.chi < 1.0 && rated.pdop < 10.0);
/// assert_eq!(rated.predicted_error(), rated.pdop * 0.01);
///
/// // A mileage counts it, or sets it aside and scales by coverage.
/// let mut mileage = Mileage::start(0.2)?;
/// mileage.add(&Epoch { moved: Ok(rated.into()), pulses: 53 })?;
/// # Ok::<(), Refusal>(())
/// ```
pub fn delta_position_rated(
    previous: &[Carrier],
    current: &[Carrier],
    dt: f64,
    at: Ecef,
    set: &Settings,
) -> Result<Rated, Refusal> {
    let (p, c) = (Columns::of(previous), Columns::of(current));
    let (pf, cf) = (p.floats.as_flattened(), c.floats.as_flattened());
    let (mut lent, mut quality) = (Lent::default(), [0.0; 2]);
    // SAFETY: each column has its length beside it, and the last three are ours alone.
    let number = unsafe {
        sys::zaqnuti_displacement_rated(
            p.constellation.as_ptr(),
            p.constellation.len(),
            p.svid.as_ptr(),
            p.svid.len(),
            p.band.as_ptr(),
            p.band.len(),
            p.state.as_ptr(),
            p.state.len(),
            pf.as_ptr(),
            pf.len(),
            previous.len(),
            c.constellation.as_ptr(),
            c.constellation.len(),
            c.svid.as_ptr(),
            c.svid.len(),
            c.band.as_ptr(),
            c.band.len(),
            c.state.as_ptr(),
            c.state.len(),
            cf.as_ptr(),
            cf.len(),
            current.len(),
            dt,
            &at.coordinates(),
            &set.floats(),
            set.iterations,
            &mut lent.delta,
            &mut quality,
            &mut lent.counts,
        )
    };
    let (moved, [chi, pdop]) = (lent.answer(number)?, quality);
    Ok(Rated { moved, chi, pdop })
}

/// Returns the displacement of [`city_displacement`] with the quality of its fit.
///
/// Refused as that is; then as [`delta_position_rated`] is.
pub fn city_displacement_rated(
    previous: &[Carrier],
    current: &[Carrier],
    dt: f64,
    band: u32,
    at: Ecef,
    set: &Settings,
) -> Result<Rated, Refusal> {
    let (p, c) = (Columns::of(previous), Columns::of(current));
    let (pf, cf) = (p.floats.as_flattened(), c.floats.as_flattened());
    let (mut lent, mut quality) = (Lent::default(), [0.0; 2]);
    // SAFETY: each column has its length beside it, and the last three are ours alone.
    let number = unsafe {
        sys::zaqnuti_city_displacement_rated(
            p.constellation.as_ptr(),
            p.constellation.len(),
            p.svid.as_ptr(),
            p.svid.len(),
            p.band.as_ptr(),
            p.band.len(),
            p.state.as_ptr(),
            p.state.len(),
            pf.as_ptr(),
            pf.len(),
            previous.len(),
            c.constellation.as_ptr(),
            c.constellation.len(),
            c.svid.as_ptr(),
            c.svid.len(),
            c.band.as_ptr(),
            c.band.len(),
            c.state.as_ptr(),
            c.state.len(),
            cf.as_ptr(),
            cf.len(),
            current.len(),
            dt,
            band,
            &at.coordinates(),
            &set.floats(),
            set.iterations,
            &mut lent.delta,
            &mut quality,
            &mut lent.counts,
        )
    };
    let (moved, [chi, pdop]) = (lent.answer(number)?, quality);
    Ok(Rated { moved, chi, pdop })
}
