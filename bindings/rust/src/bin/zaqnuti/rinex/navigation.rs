//! RINEX navigation files, versions 2 and 3: ephemerides and Klobuchar parameters.

use crate::atmosphere::Klobuchar;
use crate::fault::{tell, Run};

use super::ephemeris::Ephemeris;
use super::grain;
use super::head::{self, Version};
use super::lines::Lines;
use super::motion;
use super::record::Record;
use super::signals::{Band, Satellite, System, SYSTEMS};
use super::time::Moment;

/// The greatest age of a usable ephemeris, before or after its reference time, s.
fn span(system: System) -> f64 {
    match system {
        System::Gps => 7_201.0,
        System::Glonass => 1_801.0,
        System::Galileo => 14_401.0,
        System::Beidou => 21_601.0,
    }
}

/// The ephemerides of all files, by satellite.
pub struct Ephemerides {
    by_satellite: Vec<Vec<Ephemeris>>,
    /// The Klobuchar parameters broadcast by GPS.
    pub klobuchar: Option<Klobuchar>,
}

/// Why a satellite has no usable ephemeris.
#[derive(Clone, Copy, Debug, PartialEq)]
pub enum Lack {
    /// It has none.
    None,
    /// All are too far away in time.
    Old,
    /// The nearest says that the satellite is unhealthy.
    Unhealthy,
}

impl Ephemerides {
    /// Reads navigation files.
    pub fn read(paths: &[String]) -> Run<Self> {
        Self::of(paths.iter().map(|path| Lines::open(path)))
    }

    fn of(files: impl Iterator<Item = Run<Lines>>) -> Run<Self> {
        let by_satellite = vec![Vec::new(); Satellite::PLACES];
        let mut all = Self {
            by_satellite,
            klobuchar: None,
        };
        for lines in files {
            all.add(lines?)?;
        }
        for list in &mut all.by_satellite {
            list.sort_by(|a, b| a.toe.since(b.toe).total_cmp(&0.0));
        }
        all.agree();
        Ok(all)
    }

    /// Leaves out ephemerides that contradict those before and after them.
    fn agree(&mut self) {
        let mut left = 0;
        for list in &mut self.by_satellite {
            let pairs: Vec<Option<bool>> = list.windows(2).map(|w| w[0].agrees(&w[1])).collect();
            let beside = |i: usize| {
                let before = i.checked_sub(1).and_then(|b| pairs[b]);
                [before, pairs.get(i).copied().flatten()]
            };
            let alone =
                |i: usize| beside(i).contains(&Some(false)) && !beside(i).contains(&Some(true));
            let mut i = 0;
            let before = list.len();
            let bad: Vec<bool> = (0..before).map(alone).collect();
            list.retain(|_| {
                i += 1;
                !bad[i - 1]
            });
            left += before - list.len();
        }
        if left > 0 {
            let why = "left out, which contradict those before or after them";
            tell(&format!("{left} ephemerides are {why}"));
        }
    }

    fn add(&mut self, mut lines: Lines) -> Run<()> {
        let version = self.header(&mut lines)?;
        let mut found = Vec::new();
        while lines.next()? {
            if lines.text().trim_ascii().is_empty() {
                continue;
            }
            let record = Record::read(&mut lines, &version)?;
            if let Some((satellite, ephemeris)) = record.ephemeris(&version)? {
                found.push((satellite, ephemeris, record));
            }
        }
        self.keep(found, lines.name());
        Ok(())
    }

    /// Keeps the ephemerides of a file, without those that were damaged.
    fn keep(&mut self, found: Vec<(Satellite, Ephemeris, Record)>, name: &str) {
        let tilt = motion::tilt(found.iter().map(|(_, e, _)| e));
        let odd: Vec<u64> = found.iter().map(|(s, e, r)| r.odd(*s, e, tilt)).collect();
        let mut bad = vec![false; found.len()];
        for system in SYSTEMS {
            let own = (0..found.len()).filter(|i| found[*i].0.system == system);
            let telling = grain::telling(own.clone().map(|i| odd[i]));
            own.clone().for_each(|i| bad[i] = odd[i] & telling != 0);
            let sound: Vec<usize> = own.filter(|i| !bad[*i]).collect();
            let numbers: Vec<&[f64]> = sound.iter().map(|i| found[*i].2.numbers()).collect();
            if let Some(most) = grain::largest(&numbers).filter(|_| system != System::Glonass) {
                bad[sound[most]] = true;
            }
        }
        let mut left = Vec::new();
        for ((satellite, ephemeris, record), bad) in found.into_iter().zip(bad) {
            match bad {
                false => self.by_satellite[satellite.place()].push(ephemeris),
                true => left.push(record.line()),
            }
        }
        if let Some(line) = left.first() {
            let why = "left out, with numbers that no broadcast message has";
            tell(&format!("{name}:{line}: {} records {why}", left.len()));
        }
    }

    fn header(&mut self, lines: &mut Lines) -> Run<Version> {
        let version = Version::read(lines)?;
        let known = match (version.major(), version.kind) {
            (2, b'N' | b'G') | (3, b'N') => true,
            (_, b'O') => {
                return Err(lines
                    .fault("an observation file; navigation files are expected after the first"))
            }
            _ => false,
        };
        if !known {
            let why = "unsupported navigation file: GPS and GLONASS of version 2 and all of \
                version 3 are read";
            return Err(lines.fault(why));
        }
        let mut numbers: [Option<[f64; 4]>; 2] = [None; 2];
        loop {
            lines.wanted("the header")?;
            let (place, from) = match lines.label() {
                b"END OF HEADER" => break,
                b"ION ALPHA" => (0, 2),
                b"ION BETA" => (1, 2),
                b"IONOSPHERIC CORR" if lines.field(0, 4) == b"GPSA" => (0, 5),
                b"IONOSPHERIC CORR" if lines.field(0, 4) == b"GPSB" => (1, 5),
                label => {
                    head::foreign(lines, label)?;
                    continue;
                }
            };
            let field = |i: usize| lines.float(from + 12 * i, from + 12 * (i + 1), "a number");
            numbers[place] = Some([field(0)?, field(1)?, field(2)?, field(3)?]);
        }
        self.ionosphere(numbers, lines.name());
        Ok(version)
    }

    /// Keeps the first Klobuchar parameters of the files.
    fn ionosphere(&mut self, numbers: [Option<[f64; 4]>; 2], name: &str) {
        let [Some([a, b, c, d]), Some([e, f, g, h])] = numbers else {
            return;
        };
        let numbers = [a, b, c, d, e, f, g, h];
        // Those that were fitted to other data are no multiples at all.
        if (1..=3).contains(&grain::odd_ionosphere(&numbers)) {
            let why = "ionosphere parameters that no broadcast message has";
            tell(&format!("{name}: {why}"));
        }
        self.klobuchar.get_or_insert(numbers);
    }

    /// Returns a satellite's ephemeris nearest to a time.
    pub fn nearest(&self, of: Satellite, band: &Band, time: Moment) -> Result<&Ephemeris, Lack> {
        let list = &self.by_satellite[of.place()];
        let age = |e: &Ephemeris| time.since(e.toe).abs();
        let from = list.partition_point(|e| e.toe.since(time) < 0.0);
        let best = |fnav: Option<bool>| {
            let fits = |e: &&Ephemeris| fnav.map_or(true, |f| f == e.fnav);
            let before = list[..from].iter().rev().find(fits);
            let after = list[from..].iter().find(fits);
            let both = before.into_iter().chain(after);
            let nearest = both.min_by(|a, b| age(a).total_cmp(&age(b)))?;
            (age(nearest) <= span(of.system)).then_some(nearest)
        };
        // F/NAV clocks are for E5a, I/NAV clocks for E1 and E5b.
        let own = match of.system {
            System::Galileo => best(Some(band.digit == b'5')),
            _ => None,
        };
        match own.or_else(|| best(None)) {
            Some(found) if found.healthy => Ok(found),
            Some(_) => Err(Lack::Unhealthy),
            None if list.is_empty() => Err(Lack::None),
            None => Err(Lack::Old),
        }
    }

    /// Returns the channel of a GLONASS satellite, if it has an ephemeris.
    pub fn channel(&self, of: Satellite) -> Option<i8> {
        self.by_satellite[of.place()].first().map(|e| e.channel)
    }
}

#[cfg(test)]
mod tests {
    use super::*;
    use crate::fault::Fault;

    const MADE: &str = include_str!("../../../../tests/rinex/made.rnx");
    const GPS: &str = include_str!("../../../../tests/rinex/brdc0910.09n");
    const GLONASS: &str = include_str!("../../../../tests/rinex/brdc0910.09g");

    fn read(text: &str) -> Run<Ephemerides> {
        Ephemerides::of([Ok(Lines::of(text))].into_iter())
    }

    fn said(text: &str) -> String {
        match read(text) {
            Err(Fault::Said(why)) => why,
            _ => panic!("no fault in {text:?}"),
        }
    }

    fn band(name: &str) -> Band {
        let digit = if name.starts_with('C') { '2' } else { '1' };
        Band::of(&format!("{}{digit}", &name[..1])).unwrap()
    }

    fn satellite(name: &str) -> Satellite {
        let system = System::of(name.as_bytes()[0]).unwrap();
        let number = name[1..].parse().unwrap();
        Satellite { system, number }
    }

    /// Returns the errors of a satellite's position, velocity and clock against given values.
    fn misses(text: &str, name: &str, at: Moment, numbers: [f64; 7]) -> [f64; 3] {
        let all = read(text).ok().unwrap();
        let found = all.nearest(satellite(name), &band(name), at).unwrap();
        let (state, clock) = found.state(at);
        let [x, y, z, vx, vy, vz, seconds] = numbers;
        let apart = |a: [f64; 3], b: [f64; 3]| {
            let squares = a.iter().zip(b).map(|(a, b)| (a - b).powi(2));
            squares.sum::<f64>().sqrt()
        };
        let place = apart(state.place, [x, y, z]);
        [
            place,
            apart(state.velocity, [vx, vy, vz]),
            (clock - seconds).abs(),
        ]
    }

    #[test]
    fn places_are_those_of_rtklib() {
        #[rustfmt::skip]
        let made: [(&str, [f64; 7]); 5] = [
            ("G01", [9424230.00526, 13738309.13622, -21032706.69935,
                -2564.355925, 461.543329, -816.090051, 4.684152941766405e-05]),
            ("E01", [-17901060.25434, 11086473.64337, -20817524.05188,
                609.335903, -1996.368812, -1586.228594, 1.257905889792929e-05]),
            ("C01", [10470241.72441, -40835590.44365, -1203494.65688,
                -1.072319, 2.005033, -53.747140, 1.045934257970368e-04]),
            ("C06", [15650688.72254, 39107647.27065, -810018.26947,
                1200.815471, -403.157011, 2489.658413, -8.646012044960817e-05]),
            ("C19", [22124149.71732, -15352047.36259, 7355726.39233,
                -515.043810, 671.549192, 2947.708102, 9.147214479817082e-05]),
        ];
        let hour = Moment::of_week(2160, 176_400.0);
        #[rustfmt::skip]
        let real: [(&str, &str, [f64; 7]); 4] = [
            (GPS, "G02", [3110000.07998, 17655621.93357, 19607932.30973,
                -2284.300613, -1043.379124, 1254.326619, 1.539702302490354e-04]),
            (GPS, "G32", [-8297566.29986, -21671753.43360, 13538954.34817,
                268.308977, -1631.825708, -2498.776367, 2.804066207522325e-04]),
            (GLONASS, "R02", [9368776.91378, -15944737.48640, -17579727.28415,
                -270.484922, 2393.482037, -2313.989986, 2.067633340626158e-05]),
            (GLONASS, "R03", [2564946.73529, -25308615.63778, -1888203.84673,
                -188.874356, 246.108253, -3563.023160, -3.425959130253842e-05]),
        ];
        let quarter = Moment::of_week(1525, 260_100.0);
        let all = made.map(|(name, n)| (MADE, name, hour, n)).into_iter();
        let all = all.chain(real.map(|(text, name, n)| (text, name, quarter, n)));
        for (text, name, at, numbers) in all {
            let [place, velocity, clock] = misses(text, name, at, numbers);
            // RTKLIB differences two positions a millisecond apart for the velocity.
            assert!(
                place < 1e-3 && velocity < 2e-3 && clock < 1e-14,
                "{name}: {place} {velocity} {clock}"
            );
        }
    }

    #[test]
    fn places_are_near_the_precise_ones() {
        // ESA's final orbits, 2009-04-01 00:15, which refer to the centre of mass.
        #[rustfmt::skip]
        let precise = [
            (GPS, "G02", [3110000.609, 17655622.266, 19607931.633], 153.949013e-6),
            (GPS, "G32", [-8297565.626, -21671755.580, 13538952.491], 280.377529e-6),
            (GLONASS, "R02", [9368778.179, -15944739.537, -17579727.691], 20.783359e-6),
        ];
        let at = Moment::of_week(1525, 260_100.0);
        for (text, name, [x, y, z], seconds) in precise {
            let [place, _, clock] = misses(text, name, at, [x, y, z, 0.0, 0.0, 0.0, seconds]);
            assert!(place < 4.0, "{name}: {place}");
            assert!(clock * 3e8 < 50.0, "{name}: {clock}");
        }
    }

    #[test]
    fn velocities_are_how_places_change() {
        let all = read(MADE).ok().unwrap();
        for name in ["G01", "E01", "C01", "C06", "C19"] {
            let at = Moment::of_week(2160, 171_000.0);
            let found = all.nearest(satellite(name), &band(name), at).unwrap();
            let place = |s: f64| found.state(at.plus(s)).0.place;
            let (before, after, now) = (place(-0.5), place(0.5), found.state(at).0.velocity);
            for i in 0..3 {
                let gap = after[i] - before[i] - now[i];
                assert!(gap.abs() < 1e-5, "{name}: {gap}");
            }
        }
    }

    #[test]
    fn ephemerides_hold_near_their_time() {
        let all = read(MADE).ok().unwrap();
        let toe = Moment::of_week(2160, 172_800.0);
        let lack = |name: &str, late: f64| {
            all.nearest(satellite(name), &band(name), toe.plus(late))
                .err()
        };
        assert_eq!(lack("G01", 7_200.0), None);
        assert_eq!(lack("G01", 7_300.0), Some(Lack::Old));
        assert_eq!(lack("G01", -7_300.0), Some(Lack::Old));
        assert_eq!(lack("E01", 14_000.0), None);
        assert_eq!(lack("C01", 21_000.0), None);
        assert_eq!(lack("C02", 0.0), Some(Lack::None));
        let sick = MADE.replacen(" 3.120000000000E+00 0.0", " 3.120000000000E+00 1.0", 1);
        let sick = read(&sick).ok().unwrap();
        let found = sick.nearest(satellite("E01"), &band("E01"), toe);
        assert_eq!(found.err(), Some(Lack::Unhealthy));
    }

    #[test]
    fn weeks_may_be_counted_anew() {
        let old = MADE.replace(" 2.160000000000E+03", " 1.120000000000E+02");
        assert!(read(&old).ok().unwrap().by_satellite == read(MADE).ok().unwrap().by_satellite);
    }

    #[test]
    fn group_delays_go_with_the_signal() {
        let all = read(MADE).ok().unwrap();
        let toe = Moment::of_week(2160, 172_800.0);
        let delay = |name: &str, band: &str| {
            let band = Band::of(band).unwrap();
            all.nearest(satellite(name), &band, toe)
                .unwrap()
                .delay(&band)
        };
        assert_eq!(delay("E01", "E1"), -2.714607966354e-9);
        let ratio = delay("G01", "G2") / delay("G01", "G1");
        assert!((ratio - (77.0_f64 / 60.0).powi(2)).abs() < 1e-12);
        assert_eq!(delay("C19", "C6"), 0.0);
        assert_ne!(delay("C19", "C2"), delay("C19", "C7"));
    }

    #[test]
    fn damage_is_told_by_file_and_line() {
        let lines: Vec<&str> = MADE.lines().collect();
        let cut = |n: usize| lines[..n].join("\n");
        assert!(said("").contains("text:0: the file is empty"));
        assert!(said("hello\n").contains("text:1: not a RINEX file"));
        assert!(said(&cut(3)).contains("text:3: the file ends within the header"));
        assert!(said(&cut(8)).contains("text:6: the record is incomplete"));
        let bad = |from: &str, to: &str| said(&MADE.replacen(from, to, 1));
        assert!(bad("E01 2021 06", "E01 2021 13").contains("text:14: no such date"));
        assert!(bad("E01 2021", "X01 2021").contains("text:14: the line does not begin"));
        assert!(bad("5.440617428197E+03", "5.440617428197E+0x").contains("is not a number"));
        assert!(bad("5.440617428197E+03", "5.440617428197E+02").contains("not the orbit"));
        assert!(bad("     3.04 ", "     4.00 ").contains("text:1: unsupported version"));
        assert!(bad("N: GNSS NAV DATA", "OBSERVATION DATA").contains("an observation file"));
    }

    /// Compares a day of broadcast orbits with ESA's final ones. RTKLIB_SOURCE is the folder of
    /// the unpacked Debian source package rtklib 2.4.3.
    #[test]
    #[ignore = "needs the test data of RTKLIB"]
    fn a_day_is_near_the_precise_orbits() {
        let source = std::env::var("RTKLIB_SOURCE").unwrap();
        let files = [
            "util/simobs/sim/brdc0910.09n",
            "test/data/rinex/brdc0910.09g",
        ];
        let all = Ephemerides::read(&files.map(|f| format!("{source}/{f}")))
            .ok()
            .unwrap();
        let day = std::fs::read_to_string(format!("{source}/test/data/sp3/esa15253.sp3")).unwrap();
        let mut at = Moment::of_week(1525, 259_200.0 - 900.0);
        let mut gaps = [Vec::new(), Vec::new()];
        for line in day.lines() {
            if line.starts_with('*') {
                at = at.plus(900.0);
            }
            let Some(name) = line.strip_prefix('P').and_then(|l| l.get(..3)) else {
                continue;
            };
            let Ok(found) = all.nearest(satellite(name), &band(name), at) else {
                continue;
            };
            let km = |i: usize| line[4 + 14 * i..18 + 14 * i].trim().parse::<f64>().unwrap();
            let place = found.state(at).0.place;
            let square: f64 = (0..3).map(|i| (place[i] - 1e3 * km(i)).powi(2)).sum();
            gaps[usize::from(name.starts_with('R'))].push(square.sqrt());
        }
        for (name, mut gaps) in ["GPS", "GLONASS"].into_iter().zip(gaps) {
            let n = gaps.len();
            let mean = (gaps.iter().map(|g| g * g).sum::<f64>() / n as f64).sqrt();
            gaps.sort_by(f64::total_cmp);
            println!(
                "{name}: {n} places, {mean:.2} m, median {:.2} m, most {:.2} m",
                gaps[n / 2],
                gaps[n - 1]
            );
            assert!(n > 1_000 && gaps[n / 2] < 5.0);
        }
    }
}
