//! The line of one drive.

use crate::decimal::written;
use crate::drive::Sums;
use crate::epochs::Time;
use crate::fields::{Fields, Value};
use crate::labels::Labels;

/// The columns of a drive.
pub const COLUMNS: &str = "file,depot,van,day,week,first_tow,last_tow,epochs,refused,carrier_mm,\
odometer_mm,greatest_mm,reached,set_aside,standing_mm,counted_mm,pulses_counted,pulses_all,coverage,\
distance_mm,gap_s,trips";

/// What is told of a drive.
pub struct Reported {
    pub file: String,
    pub labels: Labels,
    pub first: Time,
    pub last: Time,
    pub sums: Sums,
    /// Seconds that are missing between rows.
    pub gap: f64,
    /// Whether pulses may have been lost, so that there is neither coverage nor distance.
    pub lost: bool,
    /// Document 02's figure, where it is asked for.
    pub fuel: Option<Option<u64>>,
}

impl Reported {
    /// Counted pulses by all pulses; none where there are none, or some may be missing.
    pub fn coverage(&self) -> Option<f64> {
        let sums = &self.sums.mileage;
        let known = !self.lost && sums.pulses > 0;
        known.then(|| sums.covered as f64 / sums.pulses as f64)
    }

    /// Returns the drive's distance in millimetres.
    pub fn distance(&self) -> Option<u64> {
        self.sums.distance.filter(|_| !self.lost)
    }

    /// Returns its fields, in the order of the columns.
    pub fn fields(&self) -> Fields {
        let (sums, counts, labels) = (&self.sums, &self.sums.mileage, &self.labels);
        let text = |text: &str| Value::Text(text.to_string());
        let label = |label: &str| match label {
            "" => Value::Missing,
            label => text(label),
        };
        let mut fields = vec![
            ("file", text(&self.file)),
            ("depot", label(&labels.depot)),
            ("van", label(&labels.van)),
            ("day", label(&labels.day)),
            (
                "week",
                Value::maybe(self.first.week().map(|w| w.to_string())),
            ),
            ("first_tow", Value::Number(written(self.first.tow()))),
            ("last_tow", Value::Number(written(self.last.tow()))),
            ("epochs", Value::whole(counts.epochs)),
            ("refused", Value::Refused(sums.refused.clone())),
            ("carrier_mm", Value::whole(sums.carrier)),
            ("odometer_mm", Value::whole(sums.odometer)),
            ("greatest_mm", Value::whole(sums.greatest)),
            ("reached", Value::whole(sums.reached)),
            ("set_aside", Value::whole(counts.aside)),
            ("standing_mm", Value::whole(counts.standing)),
            ("counted_mm", Value::whole(counts.counted)),
            ("pulses_counted", Value::whole(counts.covered)),
            ("pulses_all", Value::whole(counts.pulses)),
            (
                "coverage",
                Value::maybe(self.coverage().map(|c| format!("{c:.4}"))),
            ),
            (
                "distance_mm",
                Value::maybe(self.distance().map(|d| d.to_string())),
            ),
            ("gap_s", Value::Number(format!("{:.3}", self.gap))),
            ("trips", Value::whole(sums.trips)),
        ];
        if let Some(fuel) = self.fuel {
            let fuel = Value::maybe(fuel.map(|f| f.to_string()));
            fields.push(("ml_per_km_carrier", fuel));
        }
        fields
    }

    /// Returns the drive in words.
    pub fn words(&self) -> String {
        let (sums, counts) = (&self.sums, &self.sums.mileage);
        let far = match (self.distance(), self.coverage()) {
            (Some(d), Some(c)) => format!("{} km, coverage {:.2} %", kilometres(d), 100.0 * c),
            _ => "no distance".into(),
        };
        let refused = match sums.refused.total() {
            0 => "none refused".to_string(),
            n => format!("{n} refused ({})", sums.refused.words()),
        };
        let (epochs, aside) = (counts.epochs, counts.aside);
        let (carrier, odometer) = (kilometres(sums.carrier), kilometres(sums.odometer));
        let totals = format!("carrier {carrier} km, odometer {odometer} km");
        let fuel = match self.fuel {
            Some(Some(ml)) => format!("; {ml} ml/km of carrier distance"),
            _ => String::new(),
        };
        let file = &self.file;
        format!("{file}: {far}; {epochs} epochs, {refused}, {aside} set aside; {totals}{fuel}")
    }
}

/// Millimetres as kilometres, to the metre and rounded down.
pub fn kilometres(millimetres: u64) -> String {
    format!(
        "{}.{:03}",
        millimetres / 1_000_000,
        millimetres / 1000 % 1000
    )
}
