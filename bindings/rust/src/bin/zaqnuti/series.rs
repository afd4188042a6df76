//! A series of epochs with their carriers: what `displacement`, `trip`, `plot` and `encode` read.

use zaqnuti::tdcp::{Carrier, Settings};
use zaqnuti::time::GpsTime;
use zaqnuti::Refusal;

use crate::args::Args;
use crate::carriers::Columns;
use crate::csv::{Column, Table};
use crate::epochs::{Epoch, Epochs, Time};
use crate::fault::{Fault, Run};
use crate::odometer::Field;
use crate::places::Places;

/// The options of a series: the receiver's place and the settings.
pub const VALUED: [&str; 9] = [
    "--at",
    "--fixes",
    "--receiver",
    "--screen",
    "--sigma-a",
    "--sigma-b",
    "--huber",
    "--mask",
    "--rounds",
];

/// The options of a series, for help.
pub const HELP: &str = "\
Options of a series:
  --at X,Y,Z          the receiver's position, m, for the whole series
  --fixes FILE        its position at each time, as `zaqnuti fix --csv` wrote it;
                      {} in FILE is the series' name without its ending
  --receiver KIND     phone or geodetic: the settings below [phone]
  --screen M          drops pairs this far from the others, m [phone 0.5, geodetic 2]
  --sigma-a M         sigma = a + b / sin(elevation), m [0.008]
  --sigma-b M         [0.002]
  --huber N           in robust sigmas [1.5]
  --mask DEGREES      satellites below it are left out [10]
  --rounds N          the most rounds, 0 to 50 [4]
";

/// What an epoch says beside its carriers.
pub struct Head {
    /// The line of the file where it begins.
    pub line: u64,
    /// Where the receiver is, from the first row that has a satellite.
    pub at: Option<[f64; 3]>,
    pub truth: Option<[f64; 3]>,
    /// The odometer's field, where it is read.
    pub count: Option<u64>,
}

/// An epoch of carriers.
pub type Sky = Epoch<Head, Carrier>;

/// Reads the true displacement of a line, none where its fields are empty.
pub fn truth(table: &Table, columns: Option<[Column; 3]>) -> Run<Option<[f64; 3]>> {
    let filled = columns.filter(|c| c.iter().any(|&c| !table.field(c).is_empty()));
    filled.map(|c| table.floats(c)).transpose()
}

/// Reads the settings from the options.
pub fn settings(args: &Args) -> Run<Settings> {
    let kind = args.receiver(Settings::default(), Settings::geodetic())?;
    Ok(Settings {
        screen: args.float("--screen", kind.screen)?,
        sigma_a: args.float("--sigma-a", kind.sigma_a)?,
        sigma_b: args.float("--sigma-b", kind.sigma_b)?,
        huber: args.float("--huber", kind.huber)?,
        mask: args.float("--mask", kind.mask)?,
        iterations: args.whole("--rounds", kind.iterations)?,
        agreement: kind.agreement,
    })
}

/// A series of epochs, and where the receiver is at each.
pub struct Series {
    epochs: Epochs<Head, Carrier>,
    places: Places,
    /// The last place that the series' own rows gave.
    last: [f64; 3],
}

impl Series {
    /// Returns the series of a table; with an odometer field, times must go forward.
    pub fn new(table: Table, args: &Args, odometer: Option<Field>, forward: bool) -> Run<Self> {
        let columns = Columns::of(&table)?;
        let place = table.optionals(["rx", "ry", "rz"])?;
        let known = table.optionals(["true_dx", "true_dy", "true_dz"])?;
        let places = Places::of(args, &table)?;
        let own = place.filter(|_| places.are_lines());
        let head = move |t: &Table| {
            Ok(Head {
                line: t.line(),
                at: None,
                truth: truth(t, known)?,
                count: odometer.map(|field| field.read(t)).transpose()?,
            })
        };
        let row = move |t: &Table, head: &mut Head| {
            if let Some(field) = odometer {
                field.check(t, head.count)?;
            }
            let carrier = columns.read_any(t)?;
            if let (Some(_), None, Some(place)) = (carrier, head.at, own) {
                head.at = Some(t.floats(place)?);
            }
            Ok(carrier)
        };
        let mut epochs = Epochs::new(table, Box::new(head), Box::new(row))?;
        epochs.forward = forward;
        Ok(Self {
            epochs,
            places,
            last: [0.0; 3],
        })
    }

    /// Returns the next epoch, none at the end of the file.
    pub fn next(&mut self) -> Run<Option<Sky>> {
        self.epochs.next()
    }

    /// Returns where the receiver is at an epoch.
    pub fn place(&mut self, epoch: &Sky) -> Run<[f64; 3]> {
        self.last = epoch.head.at.unwrap_or(self.last);
        self.places.at(epoch.time, self.last)
    }

    /// Returns the name of the file, for messages.
    pub fn name(&self) -> &str {
        self.epochs.table().name()
    }

    /// Returns a fault in a column of the line where an epoch begins.
    pub fn fault(&self, epoch: &Sky, column: &str, why: &str) -> Fault {
        let (name, line) = (self.name(), epoch.head.line);
        Fault::Said(format!("{name}:{line}: {column}: {why}"))
    }
}

/// Two times in whole nanoseconds, where both have a week.
pub fn exact(before: Time, now: Time) -> Option<Result<[GpsTime; 2], Refusal>> {
    let (before, now) = (before.gps()?, now.gps()?);
    Some(before.and_then(|before| Ok([before, now?])))
}

/// Returns the seconds between two epochs, exact to the nanosecond where both have a week.
pub fn seconds(before: Time, now: Time) -> Result<f64, Refusal> {
    match exact(before, now) {
        None => Ok(now.since(before)),
        Some(times) => {
            let [before, now] = times?;
            now.seconds_since(before)
        }
    }
}
