//! The odometer of a drive in one of its three forms: a second recording, a running count in the
//! drive's own rows, or pulses since the epoch before.

use std::cmp::Ordering;

use crate::args::Args;
use crate::csv::{Column, Table};
use crate::epochs::{Time, Times};
use crate::fault::{said, Fault, Run};
use crate::places::stem;
use crate::series::{Series, Sky};

/// The options of an odometer.
pub const VALUED: [&str; 2] = ["--odometer", "--wrap"];

/// The most pulses of an epoch.
const PULSES: u64 = 65_535;

/// A speed that no van reaches, m/s.
const FASTEST: f64 = 70.0;

/// A column of pulses or of a running count.
#[derive(Clone, Copy)]
pub struct Field {
    column: Column,
    most: u64,
}

impl Field {
    /// Reads the field of the line that was read last.
    pub fn read(self, table: &Table) -> Run<u64> {
        table.whole_to(self.column, self.most)
    }

    /// Checks that a row of an epoch says what its first row says.
    pub fn check(self, table: &Table, first: Option<u64>) -> Run<()> {
        let count = self.read(table)?;
        match first {
            Some(first) if first != count => {
                let why = format!("{count} differs from {first} in the first row of its epoch");
                Err(table.fault_in(self.column, &why))
            }
            _ => Ok(()),
        }
    }
}

/// A running count, which may wrap, as a total since its start.
struct Counter {
    wrap: Option<u32>,
    last: Option<u64>,
    total: u64,
}

impl Counter {
    fn new(wrap: Option<u32>) -> Self {
        Self {
            wrap,
            last: None,
            total: 0,
        }
    }

    /// Returns the total at the next count, or why there is none.
    fn take(&mut self, count: u64) -> Result<u64, String> {
        let last = self.last.replace(count).unwrap_or(count);
        let back = || format!("runs backwards, from {last} to {count}");
        self.total += match self.wrap {
            None => count
                .checked_sub(last)
                .ok_or_else(|| back() + "; if it wraps, give --wrap 16 or 32")?,
            Some(bits) => {
                let size = 1u64 << bits;
                let step = (count + size - last) % size;
                // Half a turn or more is a step back.
                Some(step).filter(|&s| s < size / 2).ok_or_else(back)?
            }
        };
        Ok(self.total)
    }
}

/// A second recording, with a running count at times of its own.
struct Recording {
    table: Table,
    times: Times,
    field: Field,
    counter: Counter,
    /// The last time that was read, and the count before it.
    read: Option<Time>,
    last: Option<u64>,
    ahead: Option<(Time, u64)>,
    longest: f64,
}

impl Recording {
    fn open(path: &str, args: &Args, wrap: Option<u32>) -> Run<Self> {
        let table = Table::open(path, args.has("--ignore-unknown"))?;
        let mut recording = Self {
            times: Times::of(&table)?,
            field: Field {
                column: table.column("odometer")?,
                most: most(wrap),
            },
            table,
            counter: Counter::new(wrap),
            read: None,
            last: None,
            ahead: None,
            longest: 0.0,
        };
        recording.ahead = recording.next()?;
        match recording.ahead {
            Some(_) => Ok(recording),
            None => said(format!("{path}: has no counts")),
        }
    }

    fn next(&mut self) -> Run<Option<(Time, u64)>> {
        if !self.table.next()? {
            return Ok(None);
        }
        let time = self.times.read(&self.table)?;
        if let Some(before) = self.read {
            if time != before {
                self.times.check_forward(&self.table, before, time)?;
            }
            self.longest = self.longest.max(time.since(before));
        }
        self.read = Some(time);
        let count = self.field.read(&self.table)?;
        let total = self.counter.take(count);
        let total = total.map_err(|why| self.table.fault_in(self.field.column, &why))?;
        Ok(Some((time, total)))
    }

    /// Returns the last count at or before a time.
    fn at(&mut self, time: Time) -> Run<Option<u64>> {
        while let Some((next, total)) = self.ahead {
            if next.week().is_some() != time.week().is_some() {
                let name = self.table.name();
                return said(format!(
                    "{name}: it and the drive must both have weeks, or neither"
                ));
            }
            if next.order(time) == Ordering::Greater {
                break;
            }
            self.last = Some(total);
            self.ahead = self.next()?;
        }
        Ok(self.last)
    }
}

fn most(wrap: Option<u32>) -> u64 {
    wrap.map_or(u64::MAX, |bits| (1 << bits) - 1)
}

enum Form {
    Pulses(Field),
    Count(Field),
    Recording(Box<Recording>),
}

/// The odometer of a drive.
pub struct Odometer {
    form: Form,
    counter: Counter,
}

impl Odometer {
    /// That of the drive in a table, as the options or its columns have it.
    pub fn of(args: &Args, table: &Table) -> Run<Self> {
        let wrap = wrap(args)?;
        let columns = (table.optional("odometer"), table.optional("pulses"));
        let name = table.name();
        let form = match (args.value("--odometer"), columns) {
            (Some(path), (None, None)) => {
                let path = path.replace("{}", stem(name));
                Form::Recording(Box::new(Recording::open(&path, args, wrap)?))
            }
            (None, (Some(column), None)) => Form::Count(Field {
                column,
                most: most(wrap),
            }),
            (None, (None, Some(column))) if wrap.is_none() => Form::Pulses(Field {
                column,
                most: PULSES,
            }),
            (None, (None, Some(_))) => {
                return said(format!("--wrap: {name} has pulses, which do not wrap"))
            }
            (None, (None, None)) => {
                return said(format!(
                    "{name}:1: the column \"odometer\" or \"pulses\" is missing; or give --odometer FILE"
                ))
            }
            (Some(_), _) => return several(name, "--odometer and a column of the drive"),
            (None, (Some(_), Some(_))) => return several(name, "the columns odometer and pulses"),
        };
        let counter = Counter::new(wrap);
        Ok(Self { form, counter })
    }

    /// Returns the column that the drive's rows have for it.
    pub fn field(&self) -> Option<Field> {
        match self.form {
            Form::Pulses(field) | Form::Count(field) => Some(field),
            Form::Recording(_) => None,
        }
    }

    /// Returns the running total at an epoch, none before the first count of a second recording.
    pub fn total(&mut self, series: &Series, epoch: &Sky) -> Run<Option<u64>> {
        let count = epoch.head.count.unwrap_or(0);
        match &mut self.form {
            Form::Recording(recording) => recording.at(epoch.time),
            Form::Pulses(_) => {
                self.counter.total += count;
                Ok(Some(self.counter.total))
            }
            Form::Count(_) => {
                let total = self.counter.take(count);
                let total = total.map_err(|why| series.fault(epoch, "odometer", &why))?;
                Ok(Some(total))
            }
        }
    }

    /// Returns the pulses of an epoch, from the totals at it and at the one before.
    pub fn pulses(series: &Series, epoch: &Sky, before: u64, now: u64) -> Run<u16> {
        let pulses = now - before;
        u16::try_from(pulses).map_err(|_| {
            let why = format!("{pulses} pulses since the epoch before; at most {PULSES}");
            series.fault(epoch, "odometer", &why)
        })
    }

    /// Why pulses may be missing in a drive with a gap of so many seconds, if they may; `longest` is its
    /// longest interval.
    pub fn lost(&self, gap: f64, longest: f64, per_km: u16) -> Option<String> {
        let wraps = |span: f64| {
            let size = self.counter.wrap.map(|bits| (1u64 << bits) as f64);
            let most = span * FASTEST * f64::from(per_km) / 1000.0;
            size.is_some_and(|size| most >= size / 2.0)
        };
        let why = match &self.form {
            Form::Pulses(_) if gap > 0.0 => "pulses may have been lost in it",
            Form::Count(_) if gap > 0.0 && wraps(longest) => {
                "the count may have wrapped unseen in it"
            }
            Form::Recording(recording) if wraps(recording.longest) => {
                return Some(
                    "the odometer's recording pauses so long that a wrap may be unseen".into(),
                )
            }
            _ => return None,
        };
        Some(format!("a gap of {gap:.3} s: {why}"))
    }

    /// Returns the seconds by which a second recording ends before the drive, where it never paused so long.
    pub fn ends_before(&self, last: Time) -> Option<f64> {
        match &self.form {
            Form::Recording(recording) if recording.ahead.is_none() => {
                let short = last.since(recording.read?);
                (short > recording.longest).then_some(short)
            }
            _ => None,
        }
    }
}

fn several<T>(name: &str, which: &str) -> Run<T> {
    let why = "an odometer has one form only";
    Err(Fault::Said(format!("{name}:1: odometer: {which}; {why}")))
}

/// Returns the bits of a count that wraps.
fn wrap(args: &Args) -> Run<Option<u32>> {
    match args.value("--wrap") {
        None => Ok(None),
        Some("16") => Ok(Some(16)),
        Some("32") => Ok(Some(32)),
        Some(other) => said(format!("--wrap: {other:?} is not 16 or 32")),
    }
}
