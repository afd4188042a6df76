//! The drives that `zaqnuti trip --csv` wrote, each of them once.

use std::collections::HashMap;

use crate::args::Args;
use crate::csv::{Column, Table};
use crate::epochs::{Time, Times};
use crate::fault::{said, Fault, Run};
use crate::labels::Labels;
use crate::tally::Tally;

/// The largest number of a line, so that no sum wraps: 10^15 mm are a thousand million kilometres.
pub const MOST: u64 = 1_000_000_000_000_000;

/// A drive as its line has it.
pub struct Driven {
    /// The line, for messages.
    pub at: String,
    pub file: String,
    pub labels: Labels,
    /// The time of the first epoch, and the second of the last.
    pub first: Time,
    pub last_tow: f64,
    pub epochs: u64,
    pub refused: Tally,
    pub carrier: u64,
    pub odometer: u64,
    pub pulses_counted: u64,
    pub pulses_all: u64,
    /// Millimetres, where the drive has a distance.
    pub distance: Option<u64>,
    /// Seconds that are missing between its rows.
    pub gap: f64,
}

impl Driven {
    /// Checks whether two lines of one label and one time are of one drive.
    fn is_again(&self, other: &Self) -> bool {
        let sums = |d: &Self| (d.epochs, d.carrier, d.pulses_all);
        !self.labels.van.is_empty() || self.file == other.file || sums(self) == sums(other)
    }
}

/// The columns of a drive's line.
struct Columns {
    times: Times,
    file: Column,
    depot: Column,
    van: Option<Column>,
    day: Option<Column>,
    last_tow: Column,
    refused: Column,
    wholes: [Column; 5],
    coverage: Column,
    distance: Column,
    gap: Column,
}

impl Columns {
    fn of(table: &Table) -> Run<Self> {
        let at = |name| table.column(name);
        Ok(Self {
            times: Times::named(table, "first_tow")?,
            file: at("file")?,
            depot: at("depot")?,
            van: table.optional("van"),
            day: table.optional("day"),
            last_tow: at("last_tow")?,
            refused: at("refused")?,
            wholes: [
                at("epochs")?,
                at("carrier_mm")?,
                at("odometer_mm")?,
                at("pulses_counted")?,
                at("pulses_all")?,
            ],
            coverage: at("coverage")?,
            distance: at("distance_mm")?,
            gap: at("gap_s")?,
        })
    }

    fn read(&self, table: &Table) -> Run<Driven> {
        let text = |column: Option<Column>| column.map_or("", |c| table.field(c)).to_string();
        let [epochs, carrier, odometer, counted, all] =
            self.wholes.map(|c| table.whole_to(c, MOST));
        let refused = Tally::read(table.field(self.refused))
            .ok_or_else(|| table.fault_in(self.refused, "is not as in 7:3 8:28"))?;
        let known = |c: Column| !table.field(c).is_empty();
        let distance = Some(self.distance).filter(|&c| known(c) && known(self.coverage));
        let driven = Driven {
            at: format!("{}:{}", table.name(), table.line()),
            file: text(Some(self.file)),
            labels: Labels {
                depot: text(Some(self.depot)),
                van: text(self.van),
                day: text(self.day),
            },
            first: self.times.read(table)?,
            last_tow: table.float(self.last_tow)?,
            epochs: epochs?,
            refused,
            carrier: carrier?,
            odometer: odometer?,
            pulses_counted: counted?,
            pulses_all: all?,
            distance: distance.map(|c| table.whole_to(c, MOST)).transpose()?,
            gap: table.float(self.gap)?,
        };
        self.check(table, &driven)?;
        Ok(driven)
    }

    fn check(&self, table: &Table, driven: &Driven) -> Run<()> {
        if driven.labels.depot.is_empty() {
            return Err(table.fault_in(self.depot, "empty; expected a depot"));
        }
        let (counted, all) = (driven.pulses_counted, driven.pulses_all);
        if counted > all {
            let why = format!("{counted} is above pulses_all, {all}");
            return Err(table.fault_in(self.wholes[3], &why));
        }
        if driven.distance.is_some() && counted == 0 {
            return Err(table.fault_in(self.distance, "there is one, and no pulse is counted"));
        }
        Ok(())
    }
}

/// Label, time and end of a drive.
type Key = (Labels, Option<u32>, u64, u64);

/// Reads the drives of every file; a drive that is there twice is a fault.
pub fn read(args: &Args) -> Run<Vec<Driven>> {
    let mut out: Vec<Driven> = Vec::new();
    let mut seen: HashMap<Key, Vec<usize>> = HashMap::new();
    for source in args.sources() {
        let mut table = Table::open(source, args.has("--ignore-unknown"))?;
        let columns = Columns::of(&table)?;
        let before = out.len();
        while table.next()? {
            let driven = columns.read(&table)?;
            let (first, last) = (driven.first, driven.last_tow.to_bits());
            let key = (
                driven.labels.clone(),
                first.week(),
                first.tow().to_bits(),
                last,
            );
            let alike = seen.entry(key).or_default();
            if let Some(&i) = alike.iter().find(|&&i| out[i].is_again(&driven)) {
                return Err(twice(&driven, &out[i]));
            }
            alike.push(out.len());
            out.push(driven);
        }
        if out.len() == before {
            return said(format!("{source}: has no trips"));
        }
    }
    Ok(out)
}

fn twice(driven: &Driven, before: &Driven) -> Fault {
    let (at, file) = (&driven.at, &driven.file);
    Fault::Said(format!(
        "{at}: file: the trip {file:?} is in {} already",
        before.at
    ))
}
