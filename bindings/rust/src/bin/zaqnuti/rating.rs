//! A displacement with its figures of quality, by which a mileage decides whether it counts.

use zaqnuti::tdcp::{city_displacement_rated, delta_position_rated, Carrier, Settings};
use zaqnuti::{Ecef, Refusal};

pub use zaqnuti::mileage::{Epoch, Mileage, Moved, Report, EPOCHS};

/// Two epochs, and what is asked of them.
pub struct Asked<'a> {
    pub previous: &'a [Carrier],
    pub current: &'a [Carrier],
    pub dt: f64,
    /// The band of the city profile, if it is used.
    pub band: Option<u32>,
    pub at: Ecef,
    pub set: &'a Settings,
}

impl Asked<'_> {
    /// Returns the displacement and its quality.
    pub fn rated(&self) -> Result<Moved, Refusal> {
        let (previous, current, at, set) = (self.previous, self.current, self.at, self.set);
        let rated = match self.band {
            None => delta_position_rated(previous, current, self.dt, at, set),
            Some(band) => city_displacement_rated(previous, current, self.dt, band, at, set),
        };
        rated.map(Moved::from)
    }
}
