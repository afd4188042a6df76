//! A drive's distance, which does not depend on which epochs were refused.
//!
//! A [trip](crate::trip) leaves out refused epochs and their pulses, so its fuel figure depends on how
//! much sky a van loses. A mileage keeps all pulses, adds the lengths of well rated epochs, and
//! multiplies by all pulses over the pulses of those epochs.

use crate::refusal::answered;
use crate::{sys, Refusal, Vec3};

/// The most epochs of a mileage.
pub const EPOCHS: u64 = 65_535;

/// Returns the predicted error of a displacement in metres, `(pdop * max(chi, 1)) * 0.01`, or NaN if an
/// argument is NaN or below 0.
///
/// A mileage counts a displacement if this is below its limit and both arguments are finite.
pub fn predicted_error(chi: f64, pdop: f64) -> f64 {
    if chi >= 0.0 && pdop >= 0.0 {
        pdop * chi.max(1.0) * 0.01
    } else {
        f64::NAN
    }
}

/// One epoch of a drive: its displacement with its quality, or the refusal, and its pulses.
#[derive(Clone, Copy, Debug, PartialEq)]
pub struct Epoch {
    /// The displacement, or its refusal.
    pub moved: Result<Moved, Refusal>,
    /// The odometer's pulses, which count whether or not the displacement was refused.
    pub pulses: u16,
}

/// A displacement with its quality.
#[derive(Clone, Copy, Debug, PartialEq)]
pub struct Moved {
    /// Metres.
    pub displacement: Vec3,
    /// The root of the mean squared residual in units of its sigma.
    pub chi: f64,
    /// The dilution of precision of the displacement.
    pub pdop: f64,
}

/// A mileage: ten words, as the firmware holds them, changed only by its calls.
///
/// ```
/// use zaqnuti::mileage::{Epoch, Mileage, Moved};
/// use zaqnuti::{Refusal, Vec3};
///
/// let metres = |n: f64, pulses| Epoch {
///     moved: Ok(Moved { displacement: Vec3::new(n, 0.0, 0.0), chi: 1.0, pdop: 2.0 }),
///     pulses,
/// };
/// // 10 m against 10 pulses twice, and between them a bridge: no displacement, 10 pulses.
/// let bridge = Epoch { moved: Err(Refusal::TooFewPairs), pulses: 10 };
/// let mut mileage = Mileage::start(0.2)?;
/// assert_eq!(mileage.extend([metres(10.0, 10), bridge, metres(10.0, 10)])?, 3);
/// assert_eq!(mileage.distance()?, 30_000);
/// assert_eq!(mileage.fuel(3)?, 100);
/// # Ok::<(), Refusal>(())
/// ```
#[derive(Clone, Copy, Debug, PartialEq, Eq, Hash)]
pub struct Mileage {
    words: [u64; 10],
}

/// The totals of a mileage.
#[derive(Clone, Copy, Debug, Default, PartialEq, Eq, Hash)]
pub struct Report {
    /// All epochs.
    pub epochs: u64,
    /// Those whose displacement was refused.
    pub refused: u64,
    /// Those whose displacement is not well rated.
    pub aside: u64,
    /// Millimetres of counted epochs.
    pub counted: u64,
    /// Pulses of counted epochs.
    pub covered: u64,
    /// Millimetres of standing epochs.
    pub standing: u64,
    /// Pulses of all epochs.
    pub pulses: u64,
}

impl Mileage {
    /// Starts a mileage that counts displacements whose predicted error is below `limit` metres.
    ///
    /// # Errors
    ///
    /// [`Refusal::SettingOutOfRange`] for a limit that is not finite or above 1e9 in magnitude.
    pub fn start(limit: f64) -> Result<Self, Refusal> {
        let mut words = [0; 10];
        // SAFETY: the last is ours alone.
        answered(unsafe { sys::zaqnuti_mileage_start(limit, &mut words) })?;
        Ok(Self { words })
    }

    /// Returns the mileage of ten words, as `include/zaqnuti.h` lists them. Any words may be given: a
    /// mileage out of its bounds is refused when it is used.
    pub const fn from_words(words: [u64; 10]) -> Self {
        Self { words }
    }

    /// Returns its ten words.
    pub const fn words(self) -> [u64; 10] {
        self.words
    }

    /// Adds an epoch.
    ///
    /// # Errors
    ///
    /// [`Refusal::BadTrip`] if an accepted displacement is not finite or longer than 1,000 m, the
    /// mileage is full, or it is out of its bounds. The mileage is then unchanged.
    pub fn add(&mut self, epoch: &Epoch) -> Result<(), Refusal> {
        let (number, delta, quality) = match epoch.moved {
            Ok(Moved {
                displacement: Vec3 { x, y, z },
                chi,
                pdop,
            }) => (0, [x, y, z], [chi, pdop]),
            Err(refusal) => (refusal.number(), [0.0; 3], [0.0; 2]),
        };
        // SAFETY: the first is ours alone, and the displacement and the quality are read.
        answered(unsafe {
            sys::zaqnuti_mileage_add(&mut self.words, number, &delta, &quality, epoch.pulses)
        })
    }

    /// Adds epochs in turn and returns how many there were.
    ///
    /// # Errors
    ///
    /// That of the first refused addition. The epochs before it have been added.
    pub fn extend(&mut self, epochs: impl IntoIterator<Item = Epoch>) -> Result<u64, Refusal> {
        let mut added = 0;
        for epoch in epochs {
            self.add(&epoch)?;
            added += 1;
        }
        Ok(added)
    }

    /// Returns the totals.
    ///
    /// # Errors
    ///
    /// [`Refusal::BadTrip`] if the mileage is out of its bounds.
    pub fn report(&self) -> Result<Report, Refusal> {
        let mut report = [0; 7];
        // SAFETY: the first is read, and the last is ours alone.
        answered(unsafe { sys::zaqnuti_mileage_report(&self.words, &mut report) })?;
        let [epochs, refused, aside, counted, covered, standing, pulses] = report;
        Ok(Report {
            epochs,
            refused,
            aside,
            counted,
            covered,
            standing,
            pulses,
        })
    }

    /// Returns the distance in millimetres: those of counted epochs times all pulses, divided by the
    /// pulses of counted epochs and rounded down.
    ///
    /// # Errors
    ///
    /// [`Refusal::BadTrip`] if the mileage is out of its bounds or the distance is above 2^63 - 1 mm,
    /// [`Refusal::NoDistance`] if no pulse was counted.
    pub fn distance(&self) -> Result<u64, Refusal> {
        let mut millimetres = 0;
        // SAFETY: the first is read, and the last is ours alone.
        answered(unsafe { sys::zaqnuti_mileage_distance(&self.words, &mut millimetres) })?;
        Ok(millimetres)
    }

    /// Returns the millilitres per kilometre of that distance, rounded down.
    ///
    /// # Errors
    ///
    /// Those of [`Mileage::distance`], and [`Refusal::NoDistance`] if the distance is 0.
    pub fn fuel(&self, millilitres: u32) -> Result<u64, Refusal> {
        let mut per_km = 0;
        // SAFETY: the first is read, and the last is ours alone.
        answered(unsafe { sys::zaqnuti_mileage_fuel(&self.words, millilitres, &mut per_km) })?;
        Ok(per_km)
    }
}
