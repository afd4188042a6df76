//! Times, and the epochs of a table: lines of one time that follow each other.

use std::cmp::Ordering;
use std::fmt;

use zaqnuti::time::GpsTime;
use zaqnuti::{Refusal, RECORDS};

use crate::csv::{Column, Table};
use crate::decimal;
use crate::fault::Run;

/// The seconds of a week.
const WEEK: f64 = 604_800.0;

/// A GPS week, where the file has one, and the second within it.
#[derive(Clone, Copy, PartialEq)]
pub struct Time {
    week: Option<u32>,
    tow: f64,
}

impl Time {
    /// Seconds from another time to this one.
    pub fn since(self, other: Self) -> f64 {
        let weeks = i64::from(self.week.unwrap_or(0)) - i64::from(other.week.unwrap_or(0));
        weeks as f64 * WEEK + (self.tow - other.tow)
    }

    /// Returns the time in whole nanoseconds, where the file has a week.
    pub fn gps(self) -> Option<Result<GpsTime, Refusal>> {
        self.week.map(|week| GpsTime::new(week, self.tow))
    }

    /// Seconds from the start of the week of another time.
    pub fn within(self, other: Self) -> f64 {
        self.since(Self { tow: 0.0, ..other })
    }

    /// Returns the GPS week, where the file has one.
    pub fn week(self) -> Option<u32> {
        self.week
    }

    /// Returns the second within the week.
    pub fn tow(self) -> f64 {
        self.tow
    }

    /// By week, then by second.
    pub fn order(self, other: Self) -> Ordering {
        let weeks = self.week.cmp(&other.week);
        weeks.then(self.tow.total_cmp(&other.tow))
    }

    /// Week and second as two fields of a line.
    pub fn fields(self) -> String {
        let week = self.week.map_or(String::new(), |w| w.to_string());
        format!("{week},{}", decimal::written(self.tow))
    }
}

impl fmt::Display for Time {
    fn fmt(&self, f: &mut fmt::Formatter<'_>) -> fmt::Result {
        if let Some(week) = self.week {
            write!(f, "week {week}, ")?;
        }
        write!(f, "{:.3} s", self.tow)
    }
}

/// The columns of a time.
pub struct Times {
    week: Option<Column>,
    tow: Column,
}

impl Times {
    /// Returns those of a table.
    pub fn of(table: &Table) -> Run<Self> {
        Self::named(table, "tow")
    }

    /// Returns those of a table whose time of week has another name.
    pub fn named(table: &Table, tow: &'static str) -> Run<Self> {
        let (week, tow) = (table.optional("week"), table.column(tow)?);
        Ok(Self { week, tow })
    }

    /// Returns the time of the line that was read last.
    pub fn read(&self, table: &Table) -> Run<Time> {
        let filled = self.week.filter(|&w| !table.field(w).is_empty());
        let week = filled.map(|w| table.whole(w)).transpose()?;
        let tow = table.float(self.tow)?;
        match tow.is_finite() {
            // Of the two zeros only one is a time of its own.
            true => Ok(Time {
                week,
                tow: tow + 0.0,
            }),
            false => Err(table.fault_in(self.tow, "is not finite")),
        }
    }

    /// Checks that the time of the line that was read last is after the time before it.
    pub fn check_forward(&self, table: &Table, before: Time, now: Time) -> Run<()> {
        if before.week.is_some() != now.week.is_some() {
            let week = self.week.unwrap_or(self.tow);
            return Err(table.fault_in(week, "is empty in some lines and not in others"));
        }
        match now.order(before) {
            Ordering::Greater => Ok(()),
            _ => Err(table.fault_in(self.tow, &format!("{now} is not after {before}"))),
        }
    }
}

/// The lines of one time.
pub struct Epoch<H, R> {
    pub time: Time,
    /// What is said of the whole epoch.
    pub head: H,
    /// Its rows, at most one more than the library takes: that it refuses.
    pub rows: Vec<R>,
}

/// Reads what the first line of an epoch says of all of it.
pub type ReadHead<H> = Box<dyn FnMut(&Table) -> Run<H>>;
/// Reads the row of a line, none where it is left out; it may add to the head.
pub type ReadRow<H, R> = Box<dyn FnMut(&Table, &mut H) -> Run<Option<R>>>;

/// The epochs of a table, one after the other.
pub struct Epochs<H, R> {
    table: Table,
    times: Times,
    head: ReadHead<H>,
    row: ReadRow<H, R>,
    /// Whether a time that runs backwards is a fault.
    pub forward: bool,
    ahead: Option<(Time, H, Option<R>)>,
}

impl<R: 'static> Epochs<(), R> {
    /// Returns the epochs of a table that say nothing beside their rows.
    pub fn of_rows(
        table: Table,
        mut read: impl FnMut(&Table) -> Run<Option<R>> + 'static,
    ) -> Run<Self> {
        let row = move |table: &Table, _: &mut ()| read(table);
        Self::new(table, Box::new(|_| Ok(())), Box::new(row))
    }
}

impl<H, R> Epochs<H, R> {
    /// Returns the epochs of a table, by how its lines are read.
    pub fn new(table: Table, head: ReadHead<H>, row: ReadRow<H, R>) -> Run<Self> {
        let times = Times::of(&table)?;
        Ok(Self {
            table,
            times,
            head,
            row,
            forward: false,
            ahead: None,
        })
    }

    /// Returns the start of an epoch at the line that was read last.
    fn begin(&mut self, time: Time) -> Run<(Time, H, Option<R>)> {
        let mut head = (self.head)(&self.table)?;
        let first = (self.row)(&self.table, &mut head)?;
        Ok((time, head, first))
    }

    /// Returns the next epoch, none at the end of the file.
    pub fn next(&mut self) -> Run<Option<Epoch<H, R>>> {
        let (time, mut head, first) = match self.ahead.take() {
            Some(ahead) => ahead,
            None if self.table.next()? => {
                let time = self.times.read(&self.table)?;
                self.begin(time)?
            }
            None => return Ok(None),
        };
        let mut rows = Vec::with_capacity(16);
        rows.extend(first);
        while self.table.next()? {
            let next = self.times.read(&self.table)?;
            if next != time {
                if self.forward {
                    self.times.check_forward(&self.table, time, next)?;
                }
                self.ahead = Some(self.begin(next)?);
                break;
            }
            let row = (self.row)(&self.table, &mut head)?;
            if rows.len() <= RECORDS {
                rows.extend(row);
            }
        }
        Ok(Some(Epoch { time, head, rows }))
    }

    /// Returns the table, for faults in the line that was read last.
    pub fn table(&self) -> &Table {
        &self.table
    }
}
