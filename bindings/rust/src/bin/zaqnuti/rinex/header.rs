//! The header of a RINEX observation file.

use crate::fault::Run;

use super::head::{self, Version};
use super::lines::Lines;
use super::signals::{skipped, Kind, System};
use super::time::{Moment, Scale};

/// The header of an observation file.
pub struct Header {
    pub version: Version,
    /// Its lines, with which those of later events are compared.
    lines: Vec<Vec<u8>>,
    /// The receiver's approximate position.
    pub place: Option<[f64; 3]>,
    /// The GLONASS frequency channels, by satellite.
    pub channels: [Option<i8>; 100],
    /// The time system of the epochs.
    pub scale: Scale,
    /// The times of the first and the last epoch, if they are there.
    pub times: [Option<Moment>; 2],
    /// The letters of the systems whose types are listed; none in version 2.
    pub listed: Vec<u8>,
    /// The types of observation of each system.
    pub kinds: [Vec<Kind>; 4],
}

/// Header records that must not change within a file: a new one may belong to another antenna.
const LASTING: [&[u8]; 8] = [
    b"MARKER NAME",
    b"MARKER NUMBER",
    b"REC # / TYPE / VERS",
    b"ANT # / TYPE",
    b"APPROX POSITION XYZ",
    b"ANTENNA: DELTA H/E/N",
    b"# / TYPES OF OBSERV",
    b"SYS / # / OBS TYPES",
];

/// Checks the length of a list.
fn total(lines: &Lines, count: i64) -> Run<usize> {
    match usize::try_from(count) {
        Ok(count @ 1..=999) => Ok(count),
        _ => Err(lines.fault("implausible count")),
    }
}

/// Checks that an observation type is not listed twice.
fn once(lines: &Lines, names: &mut Vec<Vec<u8>>, (from, to): (usize, usize)) -> Run<()> {
    let name = lines.field(from, to).to_vec();
    match names.contains(&name) {
        true => Err(lines.fault("an observation type is listed twice")),
        false => {
            names.push(name);
            Ok(())
        }
    }
}

impl Header {
    /// Checks that a line of an event does not change the header.
    pub fn lasts(&self, lines: &Lines) -> bool {
        !LASTING.contains(&lines.label()) || self.lines.iter().any(|h| h == lines.text())
    }

    /// Reads the header of an observation file.
    pub fn read(lines: &mut Lines) -> Run<Self> {
        let version = Version::read(lines)?;
        if version.kind != b'O' {
            return Err(lines.fault("not an observation file"));
        }
        let scale = match version.system {
            b'R' => Scale::Utc,
            b'C' => Scale::Beidou,
            _ => Scale::Gps,
        };
        let mut header = Self {
            version,
            lines: Vec::new(),
            place: None,
            channels: [None; 100],
            scale,
            times: [None; 2],
            listed: Vec::new(),
            kinds: Default::default(),
        };
        loop {
            lines.wanted("the header")?;
            if lines.label() == b"END OF HEADER" {
                return Ok(header);
            }
            header.take(lines)?;
            header.lines.push(lines.text().to_vec());
        }
    }

    /// Reads one header record, with its continuation lines.
    fn take(&mut self, lines: &mut Lines) -> Run<()> {
        match lines.label() {
            b"APPROX POSITION XYZ" => {
                let field = |i: usize| lines.float_or_0(14 * i, 14 * (i + 1), "a place");
                let place = [field(0)?, field(1)?, field(2)?];
                // Zeros mean that the position is unknown.
                self.place = (place != [0.0; 3]).then_some(place);
            }
            b"TIME OF FIRST OBS" => {
                match lines.field(48, 51) {
                    b"GPS" | b"GAL" | b"QZS" => self.scale = Scale::Gps,
                    b"GLO" => self.scale = Scale::Utc,
                    b"BDT" => self.scale = Scale::Beidou,
                    b"" => {}
                    other => return Err(lines.fault_in(other, "a time that is read")),
                }
                self.times[0] = self.date(lines)?;
            }
            b"TIME OF LAST OBS" => self.times[1] = self.date(lines)?,
            b"SYS / SCALE FACTOR" | b"OBS SCALE FACTOR" if lines.whole(2, 6, "")? != 1 => {
                return Err(lines.fault("scale factors are not supported"));
            }
            b"GLONASS SLOT / FRQ #" => self.slots(lines)?,
            b"# / TYPES OF OBSERV" if self.version.major() == 2 => self.kinds_2(lines)?,
            b"SYS / # / OBS TYPES" if self.version.major() == 3 => self.kinds_3(lines)?,
            b"# / TYPES OF OBSERV" | b"SYS / # / OBS TYPES" => {
                return Err(lines.fault("these types belong to another version of RINEX"));
            }
            label => head::foreign(lines, label)?,
        }
        Ok(())
    }

    /// Reads the time of the first or the last epoch; nothing where it is blank.
    fn date(&self, lines: &Lines) -> Run<Option<Moment>> {
        if lines.field(0, 43).is_empty() {
            return Ok(None);
        }
        let mut date = [0; 5];
        for (i, d) in date.iter_mut().enumerate() {
            *d = lines.whole(6 * i, 6 * (i + 1), "a date")?;
        }
        date[0] = head::century(date[0]);
        let second = lines.float(30, 43, "a second")?;
        match Moment::of_date(date, second, self.scale) {
            Some(time) => Ok(Some(time)),
            None => Err(lines.fault("no such date")),
        }
    }

    /// Reads GLONASS frequency channels.
    fn slots(&mut self, lines: &Lines) -> Run<()> {
        for i in 0..8 {
            let from = 4 + 7 * i;
            if lines.column(from) != b'R' {
                continue;
            }
            let number = lines.whole(from + 1, from + 3, "the number of a satellite")?;
            let channel = lines.whole(from + 4, from + 6, "a channel")?;
            if let (Ok(place @ 1..=99), -7..=6) = (usize::try_from(number), channel) {
                self.channels[place] = Some(channel as i8);
            }
        }
        Ok(())
    }

    /// Reads the observation types of version 2, which all systems share.
    fn kinds_2(&mut self, lines: &mut Lines) -> Run<()> {
        let (mut kinds, mut names) = (Vec::new(), Vec::new());
        let count = lines.whole(0, 6, "the number of types")?;
        for i in 0..total(lines, count)? {
            if i > 0 && i % 9 == 0 {
                self.more(lines, b"# / TYPES OF OBSERV")?;
            }
            let from = 10 + 6 * (i % 9);
            once(lines, &mut names, (from, from + 2))?;
            match Kind::of_2(lines.field(from, from + 2)) {
                Some(kind) => kinds.push(kind),
                None => return Err(lines.fault("an observation type is missing")),
            }
        }
        self.kinds = [(); 4].map(|()| kinds.clone());
        Ok(())
    }

    /// Reads the observation types of one system (version 3).
    fn kinds_3(&mut self, lines: &mut Lines) -> Run<()> {
        let letter = lines.column(0);
        let system = match System::of(letter) {
            Some(system) => system,
            None if skipped(letter) => System::Gps,
            None => return Err(lines.fault("unknown satellite system")),
        };
        if self.listed.contains(&letter) {
            return Err(lines.fault("the types of this system are listed twice"));
        }
        self.listed.push(letter);
        let (mut kinds, mut names) = (Vec::new(), Vec::new());
        let count = lines.whole(3, 6, "the number of types")?;
        for i in 0..total(lines, count)? {
            if i > 0 && i % 13 == 0 {
                self.more(lines, b"SYS / # / OBS TYPES")?;
            }
            let from = 7 + 4 * (i % 13);
            once(lines, &mut names, (from, from + 3))?;
            match Kind::of_3(lines.field(from, from + 3), system, self.version.number) {
                Some(kind) => kinds.push(kind),
                None => return Err(lines.fault("an observation type is missing")),
            }
        }
        if !skipped(letter) {
            self.kinds[system as usize] = kinds;
        }
        Ok(())
    }

    /// Goes to the continuation line of a list.
    fn more(&mut self, lines: &mut Lines, label: &[u8]) -> Run<()> {
        self.lines.push(lines.text().to_vec());
        lines.wanted("the header")?;
        match lines.label() == label {
            true => Ok(()),
            false => Err(lines.fault("the list above should continue here")),
        }
    }
}
