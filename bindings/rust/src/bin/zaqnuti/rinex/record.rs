//! The records of a RINEX navigation file.

use crate::fault::{said, Run};
use crate::orbit::{Earth, Glonass, Kepler, State};

use super::ephemeris::{Ephemeris, Orbit};
use super::grain;
use super::head::{self, Version};
use super::lines::Lines;
use super::motion;
use super::signals::{skipped, Satellite, System};
use super::time::{Moment, Scale};

/// A record: one satellite's ephemeris.
pub struct Record {
    name: String,
    line: u64,
    letter: u8,
    number: i64,
    time: Moment,
    /// The numbers after the date: three, then four from each line.
    numbers: Vec<f64>,
}

impl Record {
    /// Reads a record whose first line is the current one.
    pub fn read(lines: &mut Lines, version: &Version) -> Run<Self> {
        // Version 3 has one more letter in front.
        let shift = usize::from(version.major() == 3);
        let letter = match (version.major(), version.kind) {
            (3, _) => lines.column(0),
            (_, b'G') => b'R',
            _ => b'G',
        };
        if System::of(letter).is_none() && !skipped(letter) {
            return Err(lines.fault("the line does not begin with a satellite"));
        }
        let number = lines.whole(shift, shift + 2, "the number of a satellite")?;
        let time = date(lines, version, letter)?;
        let (name, line) = (lines.name().to_string(), lines.number());
        let mut numbers = Vec::with_capacity(36);
        for i in 1..4 {
            numbers.push(field(lines, shift, i)?);
        }
        while lines.next()? {
            let begins = !lines.field(0, 3 + shift).is_empty();
            if begins || lines.text().trim_ascii().is_empty() {
                lines.again();
                break;
            }
            for i in 0..4 {
                numbers.push(field(lines, shift, i)?);
            }
        }
        Ok(Self {
            name,
            line,
            letter,
            number,
            time,
            numbers,
        })
    }

    /// Returns the satellite and its ephemeris; nothing for systems that are not supported.
    pub fn ephemeris(&self, version: &Version) -> Run<Option<(Satellite, Ephemeris)>> {
        let Some(system) = System::of(self.letter) else {
            return Ok(None);
        };
        let (least, most) = match system {
            System::Glonass => (15, 19),
            _ => (31, 31),
        };
        if self.numbers.len() < least {
            return self.wrong("the record is incomplete");
        }
        if self.numbers.len() > most {
            return self.wrong("the record has lines of another one");
        }
        let number = match u8::try_from(self.number) {
            Ok(number @ 1..=99) => number,
            _ => return self.wrong("no such satellite"),
        };
        let satellite = Satellite { system, number };
        let ephemeris = match system {
            System::Glonass => self.glonass(version)?,
            _ => self.kepler(satellite)?,
        };
        Ok(Some((satellite, ephemeris)))
    }

    /// The line where the record begins.
    pub fn line(&self) -> u64 {
        self.line
    }

    /// The numbers after the date.
    pub fn numbers(&self) -> &[f64] {
        &self.numbers
    }

    /// Returns bits for what a broadcast message would not say: numbers that are no multiples of
    /// their units, times, weeks and issues that contradict each other, and an orbit that no
    /// satellite can have.
    pub fn odd(&self, of: Satellite, found: &Ephemeris, tilt: Option<[f64; 2]>) -> u64 {
        let n = |i: usize| self.numbers.get(i).copied().unwrap_or(0.0);
        let apart = match of.system {
            // GLONASS ephemerides are a quarter of an hour apart in UTC.
            System::Glonass => self.time.second_of_week() % 900.0 >= 30.0,
            _ => found.toe.since(found.toc) != 0.0,
        };
        let weeks = match of.system {
            System::Glonass => 0.0,
            System::Beidou => n(21) + 1_356.0 - found.toe.week() as f64,
            _ => n(21) - found.toe.week() as f64,
        };
        let week = (weeks + 1.0).rem_euclid(1024.0) > 2.0;
        let issue = of.system == System::Gps && (n(26) - n(3)).rem_euclid(256.0) != 0.0;
        let strained = motion::strained(found, of.system, tilt);
        let rest = [strained, apart, week, issue];
        let bits = rest.iter().fold(0, |bits, b| bits << 1 | u64::from(*b));
        grain::odd(of.system, &self.numbers) | bits << 60
    }

    fn wrong<T>(&self, why: &str) -> Run<T> {
        said(format!("{}:{}: {why}", self.name, self.line))
    }

    /// Returns the orbit of a record that is not of GLONASS.
    fn orbit(&self, of: Satellite) -> Kepler {
        let n = |i: usize| self.numbers.get(i).copied().unwrap_or(0.0);
        let earth = match (of.system, of.number) {
            (System::Galileo, _) => Earth::GALILEO,
            (System::Beidou, 1..=5 | 59..) => Earth::BEIDOU_STANDING,
            (System::Beidou, _) => Earth::BEIDOU,
            _ => Earth::GPS,
        };
        Kepler {
            earth,
            root: n(10),
            eccentricity: n(8),
            inclination: n(15),
            inclination_rate: n(19),
            node: n(13),
            node_rate: n(18),
            perigee: n(17),
            anomaly: n(6),
            motion: n(5),
            latitude: [n(7), n(9)],
            radius: [n(16), n(4)],
            tilt: [n(12), n(14)],
            second: n(11),
        }
    }

    fn kepler(&self, of: Satellite) -> Run<Ephemeris> {
        let n = |i: usize| self.numbers.get(i).copied().unwrap_or(0.0);
        let orbit = self.orbit(of);
        if !orbit.sound() {
            return self.wrong("not the orbit of a navigation satellite");
        }
        // Weeks may be counted modulo 1024 or from 2006; the date of the clock resolves this.
        let behind = if of.system == System::Beidou {
            14.0
        } else {
            0.0
        };
        let toe = Moment::of_week(0, orbit.second + behind).near(self.time);
        let (accuracy, health) = (n(23), n(24));
        let source = n(20) as i64;
        // For GPS this field is the issue of data, clock.
        let second = if of.system == System::Gps { 0.0 } else { n(26) };
        self.checked(
            Ephemeris {
                orbit: Orbit::Kepler(orbit),
                toe,
                toc: self.time,
                clock: [n(0), n(1), n(2)],
                delays: [n(25), second],
                fnav: of.system == System::Galileo && source & 0x100 != 0,
                healthy: health == 0.0 && (0.0..=300.0).contains(&accuracy),
                channel: 0,
            },
            of.system,
        )
    }

    fn glonass(&self, version: &Version) -> Run<Ephemeris> {
        let n = |i: usize| self.numbers[i];
        let km = |a: [usize; 3]| a.map(|i| n(i) * 1e3);
        let start = State {
            place: km([3, 7, 11]),
            velocity: km([4, 8, 12]),
        };
        let orbit = Glonass::new(start, km([5, 9, 13]));
        if !orbit.sound() {
            return self.wrong("not the position of a GLONASS satellite");
        }
        // Some receivers write negative channels as unsigned bytes.
        let channel = if n(10) > 128.0 { n(10) - 256.0 } else { n(10) };
        if !(-7.0..=6.0).contains(&channel) {
            return self.wrong("no such GLONASS channel");
        }
        // Version 3.05 adds the delay of the second band; .999..E9 means unknown.
        let delay = match version.number >= 305 && self.numbers.len() >= 19 {
            true if n(16).abs() < 1e-3 => n(16),
            _ => 0.0,
        };
        self.checked(
            Ephemeris {
                orbit: Orbit::Glonass(orbit),
                toe: self.time,
                toc: self.time,
                clock: [n(0), n(1), 0.0],
                delays: [delay, 0.0],
                fnav: false,
                healthy: n(6) == 0.0,
                channel: channel as i8,
            },
            System::Glonass,
        )
    }

    /// Checks that the clock and the group delays fit in the fields of the message.
    fn checked(&self, found: Ephemeris, system: System) -> Run<Ephemeris> {
        let [a, b, c] = found.clock.map(f64::abs);
        let (clock, delay) = match system {
            System::Gps => (9.8e-4, 6.0e-8),
            System::Glonass => (2.0e-3, 1.5e-8),
            System::Galileo => (6.3e-2, 1.2e-7),
            System::Beidou => (9.8e-4, 5.2e-8),
        };
        let sound = a <= clock && b <= 2.0e-8 && c <= 4.0e-15;
        match sound && found.delays.iter().all(|d| d.abs() <= delay) {
            true => Ok(found),
            false => self.wrong("not the clock of a navigation satellite"),
        }
    }
}

/// Reads a number of the current line; a blank counts as 0.
fn field(lines: &Lines, shift: usize, index: usize) -> Run<f64> {
    let from = 3 + shift + 19 * index;
    let x = lines.float_or_0(from, from + 19, "a number")?;
    // Numbers end in the last of their columns.
    let text = lines.field(from, from + 19);
    match text.is_empty() || lines.column(from + 18).is_ascii_digit() {
        true => Ok(x),
        false => Err(lines.fault_in(text, "a number of 19 columns")),
    }
}

/// Reads the date of a record, in its system's time.
fn date(lines: &Lines, version: &Version, letter: u8) -> Run<Moment> {
    let three = version.major() == 3;
    // Year, month, day, hour, minute and second.
    let columns: [(usize, usize); 6] = match three {
        true => [(4, 8), (9, 11), (12, 14), (15, 17), (18, 20), (21, 23)],
        false => [(3, 5), (6, 8), (9, 11), (12, 14), (15, 17), (17, 22)],
    };
    let mut whole = [0; 5];
    for (w, (from, to)) in whole.iter_mut().zip(columns) {
        *w = lines.whole(from, to, "a date")?;
    }
    if !three {
        whole[0] = head::century(whole[0]);
    }
    let second = lines.float(columns[5].0, columns[5].1, "a second")?;
    let scale = match letter {
        b'R' => Scale::Utc,
        b'C' => Scale::Beidou,
        _ => Scale::Gps,
    };
    match Moment::of_date(whole, second, scale) {
        Some(time) => Ok(time),
        None => Err(lines.fault("no such date")),
    }
}
