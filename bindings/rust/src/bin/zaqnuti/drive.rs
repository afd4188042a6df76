//! The totals of one drive, in as many trips and mileages of the library as it needs.

use zaqnuti::tdcp::Settings;
use zaqnuti::trip::{Drive, Trip};
use zaqnuti::Refusal;

use crate::rating::{Epoch, Mileage, Moved, Report, EPOCHS};
use crate::tally::Tally;

/// The sums of a drive.
#[derive(Clone, Default)]
pub struct Sums {
    pub refused: Tally,
    /// Carrier and odometer distance, their greatest difference and the accepted epoch that first
    /// reached it, over every accepted displacement.
    pub carrier: u64,
    pub odometer: u64,
    pub greatest: u64,
    pub reached: u64,
    /// Which epochs count.
    pub mileage: Report,
    /// Millimetres; none where no pulse was counted.
    pub distance: Option<u64>,
    /// How many trips of the library the drive took.
    pub trips: u64,
}

/// What the trips before the present one had.
#[derive(Default)]
struct Past {
    epochs: u64,
    carrier: u64,
    pulses: u64,
    greatest: u64,
    reached: u64,
    mileage: Report,
    trips: u64,
}

/// A drive under way.
pub struct Totals {
    per_km: u16,
    limit: f64,
    trip: Trip,
    mileage: Mileage,
    refused: Tally,
    past: Past,
}

impl Totals {
    /// Returns a drive just begun, with so many pulses to the kilometre and a limit of the predicted error.
    pub fn begin(set: &Settings, per_km: u16, limit: f64) -> Result<Self, Refusal> {
        Ok(Self {
            per_km,
            limit,
            trip: Drive::begin(set, per_km)?.trip(),
            mileage: Mileage::start(limit)?,
            refused: Tally::default(),
            past: Past::default(),
        })
    }

    /// Adds an epoch: its displacement, or its refusal, and its pulses.
    pub fn add(&mut self, moved: Result<Moved, Refusal>, pulses: u16) -> Result<(), Refusal> {
        if self.mileage.report()?.epochs == EPOCHS {
            self.turn_over()?;
        }
        let taken = moved.and_then(|m| self.trip.add(m.displacement, pulses).map(|()| m));
        match taken {
            Ok(_) if self.past.trips > 0 => self.compare(),
            Ok(_) => {}
            Err(why) => self.refused.add(why.number(), 1),
        }
        self.mileage.add(&Epoch {
            moved: taken,
            pulses,
        })
    }

    /// Goes on in a new trip and a new mileage.
    fn turn_over(&mut self) -> Result<(), Refusal> {
        let [_, epochs, carrier, pulses, ..] = self.trip.words();
        let (report, past) = (self.trip.report()?, &mut self.past);
        if past.trips == 0 {
            (past.greatest, past.reached) = (report.greatest, report.reached);
        }
        past.epochs += epochs;
        past.carrier += carrier;
        past.pulses += pulses;
        past.mileage = plus(past.mileage, self.mileage.report()?);
        past.trips += 1;
        self.trip = Trip::start(self.per_km)?;
        self.mileage = Mileage::start(self.limit)?;
        Ok(())
    }

    /// Accepted epochs, carrier millimetres and pulses of the whole drive.
    fn whole(&self) -> [u64; 3] {
        let [_, epochs, carrier, pulses, ..] = self.trip.words();
        let past = &self.past;
        [
            past.epochs + epochs,
            past.carrier + carrier,
            past.pulses + pulses,
        ]
    }

    /// Keeps the greatest difference of a drive of several trips.
    fn compare(&mut self) {
        let [epochs, carrier, pulses] = self.whole();
        let apart = carrier.abs_diff(odometer(pulses, self.per_km));
        if apart > self.past.greatest || epochs == 1 {
            (self.past.greatest, self.past.reached) = (apart, epochs);
        }
    }

    /// Millilitres for a kilometre of carrier distance, rounded down; none at no distance.
    pub fn fuel(&self, millilitres: u32) -> Option<u64> {
        match self.past.trips {
            0 => self.trip.fuel(millilitres).ok(),
            _ => fuel(millilitres.into(), self.whole()[1]),
        }
    }

    /// Returns the sums of the drive.
    pub fn sums(&self) -> Result<Sums, Refusal> {
        let report = self.trip.report()?;
        let mileage = self.mileage.report()?;
        let refused = self.refused.clone();
        if self.past.trips == 0 {
            return Ok(Sums {
                refused,
                carrier: report.carrier,
                odometer: report.odometer,
                greatest: report.greatest,
                reached: report.reached,
                mileage,
                distance: self.mileage.distance().ok(),
                trips: 1,
            });
        }
        let ([_, carrier, pulses], past) = (self.whole(), &self.past);
        let mileage = plus(past.mileage, mileage);
        Ok(Sums {
            refused,
            carrier,
            odometer: odometer(pulses, self.per_km),
            greatest: past.greatest,
            reached: past.reached,
            mileage,
            distance: scaled(&mileage),
            trips: past.trips + 1,
        })
    }
}

/// Returns the odometer's distance in millimetres, rounded down.
fn odometer(pulses: u64, per_km: u16) -> u64 {
    let product = u128::from(pulses) * 1_000_000;
    (product / u128::from(per_km)) as u64
}

fn plus(a: Report, b: Report) -> Report {
    Report {
        epochs: a.epochs + b.epochs,
        refused: a.refused + b.refused,
        aside: a.aside + b.aside,
        counted: a.counted + b.counted,
        covered: a.covered + b.covered,
        standing: a.standing + b.standing,
        pulses: a.pulses + b.pulses,
    }
}

/// Returns the counted distance times all pulses by counted pulses, rounded down; none where no pulse is counted.
fn scaled(sums: &Report) -> Option<u64> {
    let product = u128::from(sums.counted) * u128::from(sums.pulses);
    u64::try_from(product.checked_div(sums.covered.into())?).ok()
}

/// Millilitres for a kilometre of carrier distance, rounded down; none at no distance.
pub fn fuel(millilitres: u64, carrier: u64) -> Option<u64> {
    let product = u128::from(millilitres) * 1_000_000;
    u64::try_from(product.checked_div(carrier.into())?).ok()
}
