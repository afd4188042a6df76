//! RINEX observation files, versions 2 and 3, epoch by epoch.

use crate::fault::Run;

use super::head;
use super::header::Header;
use super::lines::{plain, Lines};
use super::signals::{other, picks, Band, Pick, Satellite, System, SYSTEMS};
use super::time::Moment;

/// One signal of an epoch.
#[derive(Clone, Copy, Debug, PartialEq)]
pub struct Signal {
    pub satellite: Satellite,
    /// The index of the band in the list of those selected, and the tracking code.
    pub band: usize,
    pub code: u8,
    /// In m.
    pub pseudorange: f64,
    /// The carrier phase in cycles, if there is one, and its loss-of-lock indicator.
    pub carrier: Option<f64>,
    pub lost: u8,
    /// In Hz, if there is one.
    pub doppler: Option<f64>,
}

/// The signals of one epoch.
#[derive(Clone)]
pub struct Epoch {
    pub time: Moment,
    /// Whether power failed since the previous epoch.
    pub failed: bool,
    pub signals: Vec<Signal>,
}

/// An observation file, read epoch by epoch.
pub struct Observations {
    lines: Lines,
    header: Header,
    picks: [Vec<Pick>; 4],
    /// One satellite's observations, each of 16 columns.
    row: Vec<u8>,
    last: Option<Moment>,
    /// Satellites of systems that the header does not list.
    unlisted: u64,
}

/// The first line of an epoch.
struct Start {
    time: Moment,
    flag: i64,
    count: usize,
}

impl Observations {
    /// Opens a file, reads its header and selects the signals of some bands.
    pub fn open(path: &str, bands: &[Band]) -> Run<Self> {
        let mut lines = Lines::open(path)?;
        let header = Header::read(&mut lines)?;
        let own = |system| picks(&header.kinds[system as usize], system, bands);
        let picks = SYSTEMS.map(own);
        if picks.iter().all(Vec::is_empty) {
            let why = "the header lists no pseudorange of the selected signals";
            return Err(lines.fault(why));
        }
        Ok(Self {
            lines,
            header,
            picks,
            row: Vec::new(),
            last: None,
            unlisted: 0,
        })
    }

    /// Returns the header's approximate position.
    pub fn place(&self) -> Option<[f64; 3]> {
        self.header.place
    }

    /// Returns the header's channel of a GLONASS satellite.
    pub fn channel(&self, number: u8) -> Option<i8> {
        self.header
            .channels
            .get(usize::from(number))
            .copied()
            .flatten()
    }

    /// Returns the header's times of the first and the last epoch.
    pub fn times(&self) -> [Option<Moment>; 2] {
        self.header.times
    }

    /// Returns the number of satellites whose system the header does not list.
    pub fn unlisted(&self) -> u64 {
        self.unlisted
    }

    /// The name of the file, for messages.
    pub fn name(&self) -> &str {
        self.lines.name()
    }

    /// Reads the next epoch into one; false at the end of the file.
    pub fn next(&mut self, epoch: &mut Epoch) -> Run<bool> {
        epoch.failed = false;
        loop {
            if !self.lines.next()? {
                return Ok(false);
            }
            if self.lines.text().trim_ascii().is_empty() {
                continue;
            }
            let Some(start) = self.start()? else {
                continue;
            };
            let late = self.last.is_some_and(|last| start.time.since(last) <= 0.0);
            if late && start.flag != 6 {
                let why =
                    "the epoch is not later than the previous one: two recordings in one file?";
                return Err(self.lines.fault(why));
            }
            epoch.signals.clear();
            epoch.failed |= start.flag == 1;
            self.satellites(&start, epoch)?;
            // Cycle slip records repeat the loss-of-lock indicators.
            if start.flag == 6 {
                continue;
            }
            self.last = Some(start.time);
            epoch.time = start.time;
            return Ok(true);
        }
    }

    /// Reads an epoch's line; none of an event, whose lines are read too.
    fn start(&mut self) -> Run<Option<Start>> {
        let lines = &self.lines;
        let three = self.header.version.major() == 3;
        if lines.label() == b"RINEX VERSION / TYPE" {
            return Err(lines.fault("a second header begins here: two recordings in one file?"));
        }
        if three && lines.column(0) != b'>' {
            return Err(lines.fault("not the first line of an epoch"));
        }
        let (flag, count) = match three {
            true => ((31, 32), (32, 35)),
            false => ((28, 29), (29, 32)),
        };
        let flag = lines.whole(flag.0, flag.1, "the flag of an epoch")?;
        let count = lines.whole(count.0, count.1, "a number of satellites")?;
        let count = match usize::try_from(count) {
            Ok(count) if (0..=6).contains(&flag) => count,
            _ => return Err(lines.fault("not the first line of an epoch")),
        };
        if (2..=5).contains(&flag) {
            self.event(flag, count)?;
            return Ok(None);
        }
        let time = self.date(three)?;
        Ok(Some(Start { time, flag, count }))
    }

    fn date(&self, three: bool) -> Run<Moment> {
        let lines = &self.lines;
        let (first, step) = if three { (2, 3) } else { (1, 3) };
        let wide = if three { 4 } else { 2 };
        let mut date = [0; 5];
        let mut from = first;
        for (i, d) in date.iter_mut().enumerate() {
            let to = if i == 0 { first + wide } else { from + step };
            *d = lines.whole(from, to, "a date")?;
            from = to;
        }
        if !three {
            date[0] = head::century(date[0]);
        }
        let second = lines.field(from, from + 11);
        let Some(second) = plain(second) else {
            return Err(lines.fault_in(second, "a second"));
        };
        match Moment::of_date(date, second, self.header.scale) {
            Some(time) => Ok(time),
            None => Err(lines.fault("no such date")),
        }
    }

    /// Reads the lines of an event.
    fn event(&mut self, flag: i64, count: usize) -> Run<()> {
        if flag == 2 {
            // The antenna starts to move.
            self.header.place = None;
        }
        for _ in 0..count {
            self.lines.wanted("an event")?;
            if !self.lines.label().iter().any(u8::is_ascii_alphabetic) {
                return Err(self.lines.fault("no line of an event: it has no label"));
            }
            if !self.header.lasts(&self.lines) {
                let why = "the antenna, position or observation types change here; split the file";
                return Err(self.lines.fault(why));
            }
        }
        match flag {
            3 => Err(self.lines.fault("a new site begins here; split the file")),
            _ => Ok(()),
        }
    }

    /// Reads the satellites of an epoch.
    fn satellites(&mut self, start: &Start, epoch: &mut Epoch) -> Run<()> {
        let mut seen = [0_u128; 4];
        let names = match self.header.version.major() {
            2 => self.names(start.count)?,
            _ => Vec::new(),
        };
        for i in 0..start.count {
            let name = match names.get(i) {
                Some(name) => {
                    self.row_2()?;
                    *name
                }
                None => self.row_3()?,
            };
            let satellite = self.satellite(name)?;
            self.unlisted += u64::from(!self.lists(name[0]));
            let Some(satellite) = satellite else {
                continue;
            };
            let (set, bit) = (&mut seen[satellite.system as usize], 1 << satellite.number);
            if *set & bit != 0 {
                let why = "the epoch has this satellite twice: two antennas in one file?";
                return Err(self.lines.fault(why));
            }
            *set |= bit;
            self.signals(satellite, epoch)?;
        }
        Ok(())
    }

    /// The names in an epoch's line of version 2 and its continuations, twelve in each.
    fn names(&mut self, count: usize) -> Run<Vec<[u8; 3]>> {
        let mut names = Vec::with_capacity(count);
        for i in 0..count {
            if i > 0 && i % 12 == 0 {
                self.lines.wanted("an epoch")?;
            }
            let from = 32 + 3 * (i % 12);
            names.push([0, 1, 2].map(|c| self.lines.column(from + c)));
        }
        Ok(names)
    }

    /// Reads the lines of a satellite of version 2, five observations in each.
    fn row_2(&mut self) -> Run<()> {
        self.row.clear();
        for i in 0..self.header.kinds[0].len().div_ceil(5) {
            self.lines.wanted("an epoch")?;
            let text = self.lines.text();
            self.row.extend(&text[..text.len().min(80)]);
            self.row.resize(80 * (i + 1), b' ');
        }
        Ok(())
    }

    /// Reads the line of a satellite of version 3, and gives its name.
    fn row_3(&mut self) -> Run<[u8; 3]> {
        self.lines.wanted("an epoch")?;
        let text = self.lines.text();
        self.row.clear();
        self.row.extend(text.get(3..).unwrap_or_default());
        Ok([0, 1, 2].map(|c| self.lines.column(c)))
    }

    /// Checks whether the header lists a system.
    fn lists(&self, letter: u8) -> bool {
        let version = &self.header.version;
        match version.major() {
            2 => letter == b' ' || version.system == b'M' || version.system == letter,
            _ => self.header.listed.contains(&letter),
        }
    }

    /// The satellite of a name such as G07; none of a system that is not read.
    fn satellite(&self, [letter, tens, ones]: [u8; 3]) -> Run<Option<Satellite>> {
        // In version 2 a blank stands for the file's system.
        let letter = if letter == b' ' {
            self.header.version.system
        } else {
            letter
        };
        let digit = |b: u8| b.is_ascii_digit().then(|| b - b'0');
        let tens = if tens == b' ' { Some(0) } else { digit(tens) };
        match (System::of(letter), tens, digit(ones)) {
            (Some(system), Some(tens), Some(ones)) if tens + ones > 0 => {
                let number = 10 * tens + ones;
                Ok(Some(Satellite { system, number }))
            }
            (None, Some(tens), Some(ones)) if other(letter, 10 * tens + ones) => Ok(None),
            _ => Err(self.lines.fault("no satellite here; is a line missing?")),
        }
    }

    /// The signals of a satellite: of each band the first code that has a pseudorange.
    fn signals(&self, satellite: Satellite, epoch: &mut Epoch) -> Run<()> {
        let mut done = None;
        for pick in &self.picks[satellite.system as usize] {
            if done == Some(pick.band) {
                continue;
            }
            let Some(pseudorange) = self.observed(pick.pseudorange)? else {
                continue;
            };
            done = Some(pick.band);
            let carrier = pick.carrier.map_or(Ok(None), |i| self.observed(i))?;
            let doppler = pick.doppler.map_or(Ok(None), |i| self.observed(i))?;
            let lost = pick.carrier.and_then(|i| self.row.get(16 * i + 14));
            let lost = lost.filter(|b| b.is_ascii_digit()).map_or(0, |b| b - b'0');
            epoch.signals.push(Signal {
                satellite,
                band: pick.band,
                code: pick.code,
                pseudorange,
                carrier,
                lost,
                doppler,
            });
        }
        Ok(())
    }

    /// The observation at a place of the row, of 14 columns with 3 decimals; a blank and 0 are none.
    fn observed(&self, place: usize) -> Run<Option<f64>> {
        let end = self.row.len();
        let columns = &self.row[(16 * place).min(end)..(16 * place + 14).min(end)];
        let field = columns.trim_ascii();
        if field.is_empty() {
            return Ok(None);
        }
        let whole = columns.len() == 14 && columns[10] == b'.' && columns[13] != b' ';
        match plain(field).filter(|_| whole) {
            Some(x) => Ok((x != 0.0).then_some(x)),
            None => Err(self.lines.fault_in(field, "an observation")),
        }
    }
}
