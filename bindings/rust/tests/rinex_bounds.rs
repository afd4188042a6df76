//! `zaqnuti rinex` over the end of a day, of a week and of the ten bits of a week number, and on
//! files that two antennas wrote.

#[path = "common/command.rs"]
mod command;

use std::fs;
use std::path::Path;

use command::{examples, fed, folder, run, text};

const WEEK: i64 = 604_800;

/// Returns the days since 1970-01-01 of a date.
fn day(year: i64, month: i64, day: i64) -> i64 {
    let year = if month <= 2 { year - 1 } else { year };
    let of_era = year.rem_euclid(400);
    let of_year = (153 * ((month + 9) % 12) + 2) / 5 + day - 1;
    year.div_euclid(400) * 146_097 + of_era * 365 + of_era / 4 - of_era / 100 + of_year - 719_468
}

/// Returns the second of GPS time of the start of a date.
fn midnight(year: i64, month: i64, of_month: i64) -> i64 {
    (day(year, month, of_month) - 3_657) * 86_400
}

/// Writes a second as a date, in the columns of RINEX 3.
fn date(second: i64) -> String {
    let (days, rest) = (second.div_euclid(86_400) + 3_657, second.rem_euclid(86_400));
    let year = (1980..2100).rev().find(|y| day(*y, 1, 1) <= days).unwrap();
    let month = (1..13).rev().find(|m| day(year, *m, 1) <= days).unwrap();
    let of_month = days - day(year, month, 1) + 1;
    let (hour, minute, second) = (rest / 3600, rest / 60 % 60, rest % 60);
    format!("{year:04} {month:02} {of_month:02} {hour:02} {minute:02} {second:02}")
}

/// Reads such a date.
fn second(text: &str) -> i64 {
    let part = |i: usize| text[3 * i + 2..3 * i + 4].trim().parse::<i64>().unwrap();
    let year: i64 = text[..4].parse().unwrap();
    midnight(year, part(1), part(2)) + part(3) * 3600 + part(4) * 60 + part(5)
}

/// A navigation record that is moved in time: its satellite and its numbers after the date.
struct Record {
    name: String,
    at: i64,
    numbers: Vec<f64>,
}

impl Record {
    fn of(lines: &[&str]) -> Self {
        let number = |line: &str, i: usize| line.get(4 + 19 * i..23 + 19 * i)?.trim().parse().ok();
        let numbers = (1..32).map(|i| number(lines[i / 4], i % 4).unwrap_or(0.0));
        Self {
            name: lines[0][..3].to_string(),
            at: second(&lines[0][4..23]),
            numbers: numbers.take(4 * lines.len() - 1).collect(),
        }
    }

    fn text(&self) -> String {
        let mut out = format!("{} {}", self.name, date(self.at));
        for (i, x) in self.numbers.iter().enumerate() {
            if i % 4 == 3 {
                out += "\n    ";
            }
            let text = format!("{x:.12e}");
            let (digits, exponent) = text.split_once('e').unwrap();
            let exponent: i32 = exponent.parse().unwrap();
            let sign = if exponent < 0 { '-' } else { '+' };
            let text = format!("{digits}E{sign}{:02}", exponent.abs());
            out += &format!("{text:>19}");
        }
        out + "\n"
    }

    /// Moves the record by some seconds, with the whole sky, and writes week numbers of ten bits.
    fn shift(&mut self, seconds: i64) {
        self.at += seconds;
        if self.name.starts_with('R') {
            return;
        }
        let turn = if self.name.starts_with('C') {
            7.292115e-5
        } else {
            7.2921151467e-5
        };
        let old = self.numbers[11];
        self.numbers[11] = self.at.rem_euclid(WEEK) as f64;
        self.numbers[13] =
            (self.numbers[13] + turn * (self.numbers[11] - old)) % std::f64::consts::TAU;
        let first = if self.name.starts_with('C') { 1_356 } else { 0 };
        self.numbers[21] = ((self.at.div_euclid(WEEK) - first) % 1024) as f64;
    }

    /// Refers the same orbit to a later time; not for geostationary satellites.
    fn refer(&mut self, later: i64) {
        let n = &mut self.numbers;
        let (span, gps) = (later as f64, self.name.starts_with('G'));
        let gravity: f64 = if gps { 3.986005e14 } else { 3.986004418e14 };
        let turn = if self.name.starts_with('C') {
            7.292115e-5
        } else {
            7.2921151467e-5
        };
        let pi = std::f64::consts::PI;
        let around = |x: f64| (x + pi).rem_euclid(2.0 * pi) - pi;
        n[0] += n[1] * span;
        n[6] = around(n[6] + ((gravity / n[10].powi(6)).sqrt() + n[5]) * span);
        n[15] += n[19] * span;
        n[13] += (n[18] - turn) * span;
        self.shift(later);
    }
}

/// Returns the recording of four systems, moved by some seconds. With `both` every other ephemeris
/// is from 960 s later.
fn moved(name: &str, seconds: i64, both: bool) -> [String; 2] {
    let made = Path::new(env!("CARGO_MANIFEST_DIR")).join("tests/rinex");
    let room = folder(name);
    let observations = fs::read_to_string(made.join("sky.obs")).unwrap();
    let mut out = String::new();
    for line in observations
        .lines()
        .filter(|l| !l.contains("TIME OF FIRST OBS"))
    {
        match line.strip_prefix("> ") {
            Some(rest) => {
                out += &format!("> {}{}\n", date(second(&rest[..19]) + seconds), &rest[19..])
            }
            None => out += &format!("{line}\n"),
        }
    }
    let navigation = fs::read_to_string(made.join("sky.nav")).unwrap();
    let lines: Vec<&str> = navigation.lines().collect();
    let head = lines
        .iter()
        .position(|l| l.contains("END OF HEADER"))
        .unwrap()
        + 1;
    let mut nav = lines[..head].join("\n") + "\n";
    let starts: Vec<usize> = (head..lines.len())
        .filter(|i| !lines[*i].starts_with(' '))
        .collect();
    for (i, start) in starts.iter().enumerate() {
        let end = starts.get(i + 1).copied().unwrap_or(lines.len());
        let mut record = Record::of(&lines[*start..end]);
        record.shift(seconds);
        let standing = record.name == "C04";
        if both && i % 2 == 0 && !record.name.starts_with('R') && !standing {
            record.refer(960);
        }
        nav += &record.text();
    }
    [("moved.obs", out), ("moved.nav", nav)].map(|(name, text)| {
        let at = room.join(name);
        fs::write(&at, text).unwrap();
        at.display().to_string()
    })
}

/// Returns some columns of the fixes of a recording without models, which depend on the hour.
fn fixes([observations, navigation]: &[String; 2]) -> Vec<Vec<f64>> {
    let out = run(&["rinex", "--no-models", observations, navigation]);
    assert_eq!(
        (out.status.code(), text(&out.stderr).as_str()),
        (Some(0), "")
    );
    let fixed = fed(&["fix", "--receiver", "geodetic", "--csv"], &out.stdout);
    assert_eq!(fixed.status.code(), Some(0));
    let moved = fed(
        &["displacement", "--receiver", "geodetic", "--csv"],
        &out.stdout,
    );
    assert_eq!(moved.status.code(), Some(0), "{}", text(&moved.stderr));
    assert_eq!(text(&moved.stdout).lines().count(), 8);
    let line = |l: &str| l.split(',').map(|f| f.parse().unwrap()).collect();
    text(&fixed.stdout).lines().skip(1).map(line).collect()
}

#[test]
fn ends_of_days_and_weeks_change_no_position() {
    let middle = midnight(2021, 6, 1) + 604;
    let still = fixes(&moved("still", 0, false));
    // The end of a day, of a week, of a year, and of ten bits of weeks.
    let ends = [(2021, 6, 2), (2021, 6, 6), (2023, 1, 1), (2019, 4, 7)];
    for (year, month, of_month) in ends {
        for both in [false, true] {
            let end = midnight(year, month, of_month);
            let name = format!("end-{year}-{month}-{both}");
            let found = fixes(&moved(&name, end - middle, both));
            assert_eq!(found.len(), 8);
            for (i, (a, b)) in found.iter().zip(&still).enumerate() {
                let at = end - 4 + i as i64;
                assert_eq!((a[0] as i64, a[1] as i64), (at / WEEK, at % WEEK));
                let far = (2..5).map(|k| (a[k] - b[k]).abs()).fold(0.0, f64::max);
                assert!(far < 2e-3, "{name} {i}: {far}");
                assert_eq!(a[5], b[5], "{name}");
            }
        }
    }
}

#[test]
fn ephemerides_of_another_day_are_not_used() {
    let [observations, _] = moved("today", 0, false);
    for days in [-7, -1, 1, 7, 1024 * 7] {
        let [_, navigation] = moved("other-day", days * 86_400, false);
        let out = run(&["rinex", &observations, &navigation]);
        let why = text(&out.stderr);
        assert_eq!(out.status.code(), Some(2), "{days}: {why}");
        assert!(
            why.contains("too old or too new") && why.contains("nothing to write"),
            "{why}"
        );
    }
}

/// Puts the epochs of two recordings in one file, in the order of their times.
fn mixed(name: &str, late: f64, walk: bool) -> (Option<i32>, String) {
    let hour = examples().join("geonet");
    let file = fs::read_to_string(hour.join("07590920.05o")).unwrap();
    let lines: Vec<&str> = file.lines().collect();
    let head = lines
        .iter()
        .position(|l| l.contains("END OF HEADER"))
        .unwrap()
        + 1;
    let mut out = lines[..head].join("\n") + "\n";
    let starts: Vec<usize> = (head..lines.len())
        .filter(|i| lines[*i].starts_with(" 05"))
        .collect();
    for (i, start) in starts.iter().enumerate().take(40) {
        let epoch = &lines[*start..starts.get(i + 1).copied().unwrap_or(lines.len())];
        out += &(epoch.join("\n") + "\n");
        let second: f64 = epoch[0][15..26].trim().parse().unwrap();
        let other = format!(
            "{}{:11.7}{}",
            &epoch[0][..15],
            second + late,
            &epoch[0][26..]
        );
        out += &(other + "\n");
        for line in &epoch[1..] {
            // The other antenna has its own ambiguities, and stands elsewhere.
            let phase: f64 = line[..14].trim().parse().unwrap_or(0.0);
            let code: f64 = line[16..30].trim().parse().unwrap_or(0.0);
            let far = if walk {
                100.0 * (code * 1e-7).sin()
            } else {
                0.0
            };
            out += &format!(
                "{:14.3}  {:14.3}{}\n",
                phase + code.rem_euclid(1e6),
                code + far,
                &line[30..]
            );
        }
    }
    let at = folder(name).join("mixed.05o");
    fs::write(&at, out).unwrap();
    let navigation = hour.join("07590920.05n");
    let out = run(&[
        "rinex",
        &at.display().to_string(),
        &navigation.display().to_string(),
    ]);
    (out.status.code(), text(&out.stderr))
}

#[test]
fn two_antennas_in_one_file_are_told() {
    let (status, why) = mixed("same-time", 0.0, true);
    assert_eq!(status, Some(2));
    assert!(
        why.contains(":27: the epoch is not later than the previous one"),
        "{why}"
    );
    // Between the epochs of one antenna those of another: carriers and places jump.
    let (_, why) = mixed("between", 15.0, true);
    assert!(
        why.contains("carriers jump") || why.contains("disagree"),
        "{why}"
    );
    let (status, why) = mixed("near", 0.25, false);
    assert_ne!((status, why.as_str()), (Some(0), ""));
}
