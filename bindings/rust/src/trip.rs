//! Carrier distance beside the odometer: the totals of a trip of at most 65,535 epochs.
//!
//! A trip has two recordings of the same epochs, displacements and odometer pulses. Totals are whole
//! millimetres; every call refuses a trip that no calls can have produced.

use crate::refusal::answered;
use crate::tdcp::{Carrier, Columns, Delta, Lent, Settings};
use crate::{sys, Ecef, Refusal, Vec3};

/// The most epochs of a trip.
pub const EPOCHS: u64 = 65_535;

/// A trip: six words, as the firmware holds them, changed only by its calls.
///
/// ```
/// use zaqnuti::trip::{Report, Trip};
/// use zaqnuti::{Refusal, Vec3};
///
/// // 1,000 pulses to the kilometre: 5 m against 5 pulses, then 1 m against 3.
/// let mut trip = Trip::start(1000)?;
/// trip.add(Vec3::new(3.0, 4.0, 0.0), 5)?;
/// trip.add(Vec3::new(0.0, 0.0, 1.0), 3)?;
/// let report = trip.report()?;
/// assert_eq!(report, Report { carrier: 6000, odometer: 8000, greatest: 2000, reached: 2 });
/// assert_eq!(trip.fuel(3)?, 500);
///
/// // A refused epoch is not counted, nor are its pulses.
/// assert_eq!(trip.add(Vec3::new(f64::NAN, 0.0, 0.0), 7), Err(Refusal::BadTrip));
/// assert_eq!(trip.report()?, report);
/// # Ok::<(), Refusal>(())
/// ```
#[derive(Clone, Copy, Debug, PartialEq, Eq, Hash)]
pub struct Trip {
    words: [u64; 6],
}

/// Both totals of a trip, and their greatest difference.
#[derive(Clone, Copy, Debug, Default, PartialEq, Eq, Hash)]
pub struct Report {
    /// Carrier distance, millimetres.
    pub carrier: u64,
    /// Odometer distance, millimetres.
    pub odometer: u64,
    /// The greatest absolute difference of the two after an epoch, millimetres.
    pub greatest: u64,
    /// The first epoch that reached it, counted from 1; 0 for a trip just started.
    pub reached: u64,
}

impl Trip {
    /// Starts a trip with so many odometer pulses per kilometre.
    ///
    /// # Errors
    ///
    /// [`Refusal::BadTrip`] for a rate of 0.
    pub fn start(per_km: u16) -> Result<Self, Refusal> {
        let mut words = [0; 6];
        // SAFETY: the last is ours alone.
        answered(unsafe { sys::zaqnuti_trip_start(per_km, &mut words) })?;
        Ok(Self { words })
    }

    /// Returns the trip of six words: pulses per kilometre, epochs, carrier millimetres, pulses, greatest
    /// difference, its epoch. Any words may be given: a trip out of its limits is refused when it is used.
    pub const fn from_words(words: [u64; 6]) -> Self {
        Self { words }
    }

    /// Returns its six words.
    pub const fn words(self) -> [u64; 6] {
        self.words
    }

    /// Adds an epoch: a displacement in metres, and the odometer's pulses.
    ///
    /// # Errors
    ///
    /// [`Refusal::BadTrip`] if the displacement is not finite or longer than 1,000 m, the trip is full, or
    /// it is out of its limits. The trip is then unchanged.
    pub fn add(&mut self, displacement: Vec3, pulses: u16) -> Result<(), Refusal> {
        let delta = [displacement.x, displacement.y, displacement.z];
        // SAFETY: the first is ours alone, and the second is read.
        answered(unsafe { sys::zaqnuti_trip_add(&mut self.words, &delta, pulses) })
    }

    /// Returns both totals, and their greatest difference.
    ///
    /// # Errors
    ///
    /// [`Refusal::BadTrip`] if the trip is out of its limits.
    pub fn report(&self) -> Result<Report, Refusal> {
        let mut report = [0; 4];
        // SAFETY: the first is read, and the last is ours alone.
        answered(unsafe { sys::zaqnuti_trip_report(&self.words, &mut report) })?;
        let [carrier, odometer, greatest, reached] = report;
        Ok(Report {
            carrier,
            odometer,
            greatest,
            reached,
        })
    }

    /// Returns the millilitres per kilometre of carrier distance, rounded down.
    ///
    /// # Errors
    ///
    /// [`Refusal::BadTrip`] if the trip is out of its limits, then [`Refusal::NoDistance`] at zero
    /// carrier distance.
    pub fn fuel(&self, millilitres: u32) -> Result<u64, Refusal> {
        let mut per_km = 0;
        // SAFETY: the first is read, and the last is ours alone.
        answered(unsafe { sys::zaqnuti_trip_fuel(&self.words, millilitres, &mut per_km) })?;
        Ok(per_km)
    }
}

/// A trip that computes its displacements under settings that may change between two epochs.
///
/// Its report is that of the displacements computed under the old settings up to the change and
/// under the new ones after it.
///
/// ```
/// use zaqnuti::tdcp::Settings;
/// use zaqnuti::trip::Drive;
/// use zaqnuti::{Ecef, Refusal};
///
/// let mut drive = Drive::begin(&Settings::default(), 4000)?;
/// // Head office raises the mask; a NaN is refused, and the old mask stays.
/// drive.change(&Settings { mask: 15.0, ..Settings::default() })?;
/// let odd = Settings { mask: f64::NAN, ..Settings::default() };
/// assert_eq!(drive.change(&odd), Err(Refusal::SettingOutOfRange));
/// assert_eq!(drive.in_force().mask, 15.0);
///
/// // An epoch without enough carriers is refused, and its pulses are not counted.
/// let at = Ecef::new(-2694045.0, -4266427.0, 3888311.0);
/// assert_eq!(drive.travel(&[], &[], 1.0, at, 40), Err(Refusal::TooFewPairs));
/// assert_eq!(drive.trip().report()?.odometer, 0);
/// # Ok::<(), Refusal>(())
/// ```
#[derive(Clone, Copy, Debug, PartialEq)]
pub struct Drive {
    trip: Trip,
    in_force: Settings,
}

impl Drive {
    /// Starts a trip with these settings in force and so many odometer pulses per kilometre.
    ///
    /// # Errors
    ///
    /// [`Refusal::SettingOutOfRange`] for the settings, then [`Refusal::BadTrip`] for a rate of 0.
    pub fn begin(settings: &Settings, per_km: u16) -> Result<Self, Refusal> {
        let (mut words, mut floats, mut rounds) = ([0; 6], [0.0; 5], 0);
        // SAFETY: the first is read, and the last three are ours alone.
        answered(unsafe {
            sys::zaqnuti_trip_begin(
                &settings.floats(),
                settings.iterations,
                per_km,
                &mut words,
                &mut floats,
                &mut rounds,
            )
        })?;
        Ok(Self {
            trip: Trip { words },
            in_force: given(floats, rounds, settings.agreement),
        })
    }

    /// Returns the drive of a trip and settings in force; neither is checked before it is used.
    pub const fn from_parts(trip: Trip, in_force: Settings) -> Self {
        Self { trip, in_force }
    }

    /// Returns the trip so far.
    pub const fn trip(&self) -> Trip {
        self.trip
    }

    /// Returns the settings in force.
    pub const fn in_force(&self) -> Settings {
        self.in_force
    }

    /// Changes the settings between two epochs.
    ///
    /// # Errors
    ///
    /// [`Refusal::SettingOutOfRange`] for the new settings, then [`Refusal::BadTrip`] for the trip.
    /// The settings in force are then unchanged.
    pub fn change(&mut self, settings: &Settings) -> Result<(), Refusal> {
        let (mut floats, mut rounds) = ([0.0; 5], 0);
        // SAFETY: the first two are read, and the last two are ours alone.
        answered(unsafe {
            sys::zaqnuti_trip_settings(
                &self.trip.words,
                &settings.floats(),
                settings.iterations,
                &mut floats,
                &mut rounds,
            )
        })?;
        self.in_force = given(floats, rounds, settings.agreement);
        Ok(())
    }

    /// Computes the displacement between two epochs, `dt` seconds apart, under the settings in force, and
    /// adds it to the trip with its pulses. `at` is where the receiver was at the earlier epoch.
    ///
    /// # Errors
    ///
    /// Those of [`delta_position`](crate::tdcp::delta_position), then those of [`Trip::add`]. The trip
    /// is then unchanged: this epoch and its pulses are not counted.
    pub fn travel(
        &mut self,
        previous: &[Carrier],
        current: &[Carrier],
        dt: f64,
        at: Ecef,
        pulses: u16,
    ) -> Result<Delta, Refusal> {
        let (p, c) = (Columns::of(previous), Columns::of(current));
        let (pf, cf) = (p.floats.as_flattened(), c.floats.as_flattened());
        let mut lent = Lent::default();
        // SAFETY: each column has its length beside it, and the trip and the last two are ours alone.
        let number = unsafe {
            sys::zaqnuti_trip_displacement(
                &mut self.trip.words,
                &self.in_force.floats(),
                self.in_force.iterations,
                p.constellation.as_ptr(),
                p.constellation.len(),
                p.svid.as_ptr(),
                p.svid.len(),
                p.band.as_ptr(),
                p.band.len(),
                p.state.as_ptr(),
                p.state.len(),
                pf.as_ptr(),
                pf.len(),
                previous.len(),
                c.constellation.as_ptr(),
                c.constellation.len(),
                c.svid.as_ptr(),
                c.svid.len(),
                c.band.as_ptr(),
                c.band.len(),
                c.state.as_ptr(),
                c.state.len(),
                cf.as_ptr(),
                cf.len(),
                current.len(),
                dt,
                &at.coordinates(),
                pulses,
                &mut lent.delta,
                &mut lent.counts,
            )
        };
        lent.answer(number)
    }
}

/// Returns the settings that a call wrote.
const fn given(floats: [f64; 5], iterations: usize, agreement: f64) -> Settings {
    let [screen, sigma_a, sigma_b, huber, mask] = floats;
    Settings {
        screen,
        sigma_a,
        sigma_b,
        huber,
        mask,
        iterations,
        agreement,
    }
}
