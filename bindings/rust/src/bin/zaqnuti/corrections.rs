//! `zaqnuti corrections`: the corrections of a base station, for each line of a rover.

use std::cmp::Ordering;
use std::mem;

use zaqnuti::differential::{BaseEpoch, BaseRange, Corrections, SatelliteState, Settings, Signal};
use zaqnuti::{Refusal, RECORDS};

use crate::answer::{Answers, FLAGS, OPTIONS};
use crate::args::Args;
use crate::csv::{Column, Table};
use crate::decimal::{metres, written};
use crate::epochs::{Epoch, Epochs, Time};
use crate::fault::{said, Run};

pub const HELP: &str = "\
zaqnuti corrections --base BASE.csv --base-at X,Y,Z [OPTIONS] [ROVER.csv]:
the correction of each line of the rover, from what a base station measured

With --csv the rover's lines are written with the columns correction and
refusal appended, as `zaqnuti fix` reads them.
  tow                  of both files: time of week, s, increasing; week too, if
                       there is one
  constellation, svid  of both files; band, of 32 bits (may be left out of both)
of the base only:
  pseudorange          m, without the satellite's group delay
  x, y, z, vx, vy, vz  the satellite at transmission, m and m/s
  clock, modelled      m, as `zaqnuti fix` takes them

  --base FILE            what the base measured
  --base-at X,Y,Z        the base's position, m
  --every N              use one of N epochs of the base [1]
  --max-gap S            a longer gap is not bridged, s [90]
  --max-correction M     a larger correction is dropped, m [100]
  --constellations LIST  which to correct [1,6]
";

const VALUED: [&str; 6] = [
    "--base",
    "--base-at",
    "--every",
    "--max-gap",
    "--max-correction",
    "--constellations",
];

/// The columns of a signal.
struct Signals {
    constellation: Column,
    svid: Column,
    band: Option<Column>,
}

impl Signals {
    fn of(table: &Table) -> Run<Self> {
        Ok(Self {
            constellation: table.column("constellation")?,
            svid: table.column("svid")?,
            band: table.optional("band"),
        })
    }

    /// Returns the signal of a line, none where it has no satellite.
    fn read_any(&self, table: &Table) -> Run<Option<(u8, u16, u32)>> {
        let bare = |column| table.field(column).is_empty();
        match bare(self.constellation) && bare(self.svid) {
            true => Ok(None),
            false => self.read(table).map(Some),
        }
    }

    fn read(&self, table: &Table) -> Run<(u8, u16, u32)> {
        let band = table.whole_or(self.band, 0)?;
        Ok((
            table.whole(self.constellation)?,
            table.whole(self.svid)?,
            band,
        ))
    }
}

/// A line of the rover: its signal, none where it has no satellite, and its text to be written again.
struct Asked {
    signal: Option<(u8, u16, u32)>,
    text: String,
}

/// A line of the base: what it measured, and the satellite's state.
struct Measured {
    range: BaseRange,
    state: SatelliteState,
}

type Reader<R> = Box<dyn FnMut(&Table) -> Run<Option<R>>>;

fn rover_reader(table: &Table) -> Run<Reader<Asked>> {
    let signals = Signals::of(table)?;
    Ok(Box::new(move |t| {
        let (signal, text) = (signals.read_any(t)?, t.text().to_string());
        Ok(Some(Asked { signal, text }))
    }))
}

fn base_reader(table: &Table) -> Run<Reader<Measured>> {
    let signals = Signals::of(table)?;
    let pseudorange = table.column("pseudorange")?;
    let place = table.columns(["x", "y", "z"])?;
    let speed = table.columns(["vx", "vy", "vz"])?;
    let (clock, modelled) = (table.column("clock")?, table.column("modelled")?);
    Ok(Box::new(move |t| {
        let (constellation, svid, band) = signals.read(t)?;
        let range = BaseRange {
            constellation,
            svid,
            band,
            pseudorange: t.float(pseudorange)?,
        };
        let state = SatelliteState {
            constellation,
            svid,
            band,
            position: t.floats(place)?,
            velocity: t.floats(speed)?,
            clock: t.float(clock)?,
            modelled: t.float(modelled)?,
        };
        Ok(Some(Measured { range, state }))
    }))
}

/// Epochs whose times go forward, some of them left out.
struct Forward<R> {
    epochs: Epochs<(), R>,
    every: usize,
    count: usize,
    last: Option<Time>,
}

impl<R: 'static> Forward<R> {
    fn next(&mut self) -> Run<Option<Epoch<(), R>>> {
        loop {
            let Some(epoch) = self.epochs.next()? else {
                return Ok(None);
            };
            let back = |last| epoch.time.order(last) != Ordering::Greater;
            if self.last.is_some_and(back) {
                let (name, time) = (self.epochs.table().name(), epoch.time);
                return said(format!(
                    "{name}: the epoch {time} is not after the one before it"
                ));
            }
            self.last = Some(epoch.time);
            self.count += 1;
            if (self.count - 1) % self.every == 0 {
                return Ok(Some(epoch));
            }
        }
    }
}

/// What one base epoch hands over.
struct Handed {
    epoch: BaseEpoch,
    states: Vec<SatelliteState>,
}

/// The table, and what may have to go into it again.
struct Station {
    table: Corrections,
    recent: Vec<Handed>,
    set: Settings,
    at: [f64; 3],
}

impl Station {
    fn add(&mut self, handed: Handed) -> Result<(), (Refusal, Handed)> {
        let (epoch, states) = (&handed.epoch, Some(handed.states.as_slice()));
        // The states are those of the base's own transmission times, as if the rover stood there.
        if let Err(why) = self.table.add(epoch, states, self.at, self.at) {
            return Err((why, handed));
        }
        self.recent.push(handed);
        Ok(())
    }

    /// Adds an epoch; where the table is full, samples before `needed` make room for it.
    fn add_with_room(&mut self, handed: Handed, needed: f64) -> Result<(), Refusal> {
        self.recent.retain(|old| old.epoch.tow >= needed);
        let handed = match self.add(handed) {
            Err((Refusal::TableFull, handed)) => handed,
            other => return other.map_err(|(why, _)| why),
        };
        self.table = Corrections::new(&self.set);
        for old in mem::take(&mut self.recent) {
            self.add(old).map_err(|(why, _)| why)?;
        }
        self.add(handed).map_err(|(why, _)| why)
    }
}

fn settings(args: &Args) -> Run<Settings> {
    let kind = Settings::default();
    let mut constellations = kind.constellations;
    if let Some(list) = args.value("--constellations") {
        constellations = [false; 8];
        for part in list.split(',') {
            match part.trim().parse::<usize>() {
                Ok(place) if place < 8 => constellations[place] = true,
                _ => return said(format!("--constellations: {part:?} is not 0 to 7")),
            }
        }
    }
    Ok(Settings {
        max_gap: args.float("--max-gap", kind.max_gap)?,
        max_correction: args.float("--max-correction", kind.max_correction)?,
        constellations,
    })
}

/// A run: the base's epochs still to come, and the table of those before.
struct Work {
    base: Forward<Measured>,
    next_base: Option<Epoch<(), Measured>>,
    station: Station,
    answers: Answers,
}

impl Work {
    /// Gives the table every base epoch that a rover's epoch may need.
    fn add_around(&mut self, rover: Time, start: Time) -> Run<()> {
        let gap = self.station.set.max_gap;
        while let Some(base) = self.next_base.take() {
            if base.time.since(rover) > gap {
                self.next_base = Some(base);
                break;
            }
            let handed = Handed {
                epoch: BaseEpoch {
                    tow: base.time.within(start),
                    ranges: base.rows.iter().map(|m| m.range).collect(),
                },
                states: base.rows.iter().map(|m| m.state).collect(),
            };
            let added = self
                .station
                .add_with_room(handed, rover.within(start) - gap);
            if let Err(why) = added {
                let what = format!("the base's epoch {}", base.time);
                self.answers.refused_aside(&what, why);
            }
            self.next_base = self.base.next()?;
        }
        Ok(())
    }

    /// Answers the lines of a rover's epoch; times count from the week of `start`, so that no
    /// week's end is seen.
    fn answer(&mut self, epoch: &Epoch<(), Asked>, start: Time) -> Run<()> {
        self.add_around(epoch.time, start)?;
        let tow = epoch.time.within(start);
        let signal = |(constellation, svid, band)| Signal {
            constellation,
            svid,
            band,
            tow,
        };
        let asked = epoch.rows.iter().filter_map(|a| a.signal);
        let asked: Vec<Signal> = asked.map(signal).collect();
        let each = match self.station.table.at_each(&asked) {
            Ok(each) => each,
            Err(why) => vec![Err(why); asked.len()],
        };
        let mut each = each.into_iter();
        for asked in &epoch.rows {
            match asked.signal.and_then(|signal| Some((signal, each.next()?))) {
                Some((signal, found)) => self.tell(epoch.time, signal, &asked.text, found)?,
                // A line without a satellite has no correction.
                None => self.answers.tell(
                    || format!("{}: no satellite", epoch.time),
                    || format!("{},,0", asked.text),
                )?,
            }
        }
        Ok(())
    }

    fn tell(
        &mut self,
        time: Time,
        signal: (u8, u16, u32),
        text: &str,
        found: Result<f64, Refusal>,
    ) -> Run<()> {
        let (constellation, svid, _) = signal;
        match found {
            Ok(x) => self.answers.tell(
                || format!("{time}, {constellation}/{svid}: {} m", metres(x)),
                || format!("{text},{},0", written(x)),
            ),
            Err(why) => {
                let words = self.answers.refused(why);
                self.answers.tell(
                    || format!("{time}, {constellation}/{svid}: {words}"),
                    || format!("{text},,{}", why.number()),
                )
            }
        }
    }
}

fn begin(args: &Args, header: &str) -> Run<Work> {
    let set = settings(args)?;
    args.needed("--base-at")?;
    let at = args.place("--base-at")?.unwrap_or_default();
    let table = Table::open(args.needed("--base")?, args.has("--ignore-unknown"))?;
    let every: usize = args.whole("--every", 1)?;
    if every == 0 {
        return said("--every: must be 1 or more");
    }
    let read = base_reader(&table)?;
    let mut base = Forward {
        epochs: Epochs::of_rows(table, read)?,
        every,
        count: 0,
        last: None,
    };
    let next_base = base.next()?;
    Ok(Work {
        base,
        next_base,
        station: Station {
            table: Corrections::new(&set),
            recent: Vec::new(),
            set,
            at,
        },
        answers: Answers::open(args, header)?,
    })
}

/// Answers each line of the rover; true where none is refused.
pub fn run(words: &[String]) -> Run<bool> {
    let args = Args::parse(words, &[&VALUED[..], &OPTIONS].concat(), &FLAGS)?;
    let table = Table::open(args.source()?, args.has("--ignore-unknown"))?;
    for column in ["correction", "refusal"] {
        if table.optional(column).is_some() {
            return said(format!("{}:1: has a column {column} already", table.name()));
        }
    }
    let header = format!("{},correction,refusal", table.header());
    let read = rover_reader(&table)?;
    let mut rover = Forward {
        epochs: Epochs::of_rows(table, read)?,
        every: 1,
        count: 0,
        last: None,
    };
    let mut work = begin(&args, &header)?;
    let mut start = None;
    while let Some(epoch) = rover.next()? {
        if epoch.rows.len() > RECORDS {
            let (name, time) = (rover.epochs.table().name(), epoch.time);
            return said(format!(
                "{name}: the epoch {time} has more than {RECORDS} lines"
            ));
        }
        let start = *start.get_or_insert(epoch.time);
        work.answer(&epoch, start)?;
    }
    work.answers.close()
}
