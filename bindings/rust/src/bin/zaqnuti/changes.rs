//! A file of settings, in which each line is in force from its time.

use std::cmp::Ordering;

use zaqnuti::tdcp::Settings;
use zaqnuti::trip::Drive;

use crate::answer::in_words;
use crate::args::Args;
use crate::csv::{Column, Table};
use crate::epochs::{Time, Times};
use crate::fault::{said, Run};

/// The lines of a file of settings, going forward.
pub struct Changes {
    table: Table,
    times: Times,
    floats: [Column; 5],
    rounds: Column,
    ahead: Option<(Time, Settings)>,
}

impl Changes {
    /// Opens the file that the options name, if they do.
    pub fn open(args: &Args) -> Run<Option<Self>> {
        let Some(path) = args.value("--settings") else {
            return Ok(None);
        };
        let table = Table::open(path, args.has("--ignore-unknown"))?;
        let at = |name| table.column(name);
        let mut changes = Self {
            times: Times::of(&table)?,
            floats: [
                at("screen")?,
                at("sigma_a")?,
                at("sigma_b")?,
                at("huber")?,
                at("mask")?,
            ],
            rounds: at("rounds")?,
            table,
            ahead: None,
        };
        changes.ahead = changes.read()?;
        Ok(Some(changes))
    }

    /// Checks the whole file, so that a fault in it does not hang on the drives.
    pub fn check(args: &Args) -> Run<()> {
        if args.value("--settings") == Some("-") {
            return said("--settings: every drive reads it, so it can't be standard input");
        }
        let Some(mut changes) = Self::open(args)? else {
            return Ok(());
        };
        while changes.ahead.is_some() {
            changes.ahead = changes.read()?;
        }
        Ok(())
    }

    fn read(&mut self) -> Run<Option<(Time, Settings)>> {
        if !self.table.next()? {
            return Ok(None);
        }
        let table = &self.table;
        let time = self.times.read(table)?;
        if let Some((before, _)) = self.ahead {
            self.times.check_forward(table, before, time)?;
        }
        let [screen, sigma_a, sigma_b, huber, mask] = self.floats.map(|c| table.float(c));
        let set = Settings {
            screen: screen?,
            sigma_a: sigma_a?,
            sigma_b: sigma_b?,
            huber: huber?,
            mask: mask?,
            iterations: table.whole::<u32>(self.rounds)? as usize,
            ..Settings::default()
        };
        match Drive::begin(&set, 1) {
            Ok(_) => Ok(Some((time, set))),
            Err(why) => Err(table.fault(&in_words(why))),
        }
    }

    /// Returns the settings of the last line at or before a time, if lines have been passed since the last call.
    pub fn until(&mut self, time: Time) -> Run<Option<Settings>> {
        let mut found = None;
        while let Some((from, set)) = self.ahead {
            if from.week().is_some() != time.week().is_some() {
                let name = self.table.name();
                return said(format!(
                    "{name}: it and the drive must both have weeks, or neither"
                ));
            }
            if from.order(time) == Ordering::Greater {
                break;
            }
            found = Some(set);
            self.ahead = self.read()?;
        }
        Ok(found)
    }
}
