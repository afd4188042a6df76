//! `zaqnuti trip` and `zaqnuti rank` on the month of examples/month.

#[path = "common/command.rs"]
mod command;

use std::collections::BTreeMap;
use std::fs;
use std::path::Path;
use std::slice::from_ref;

use command::{examples, fed, folder, run, text};
use zaqnuti::tdcp::{Carrier, Settings};
use zaqnuti::trip::Drive;
use zaqnuti::Ecef;

const RATE: u16 = 8000;
const RATE_OPTION: &str = "--pulses-per-km=8000";
const PATTERN: &str = "--name-pattern={depot}-{van}-{day}.csv";

fn month(name: &str) -> String {
    examples().join("month").join(name).display().to_string()
}

/// The drives of the month.
fn drives() -> Vec<String> {
    let files = fs::read_dir(examples().join("month")).unwrap();
    let names = files.map(|f| f.unwrap().file_name().into_string().unwrap());
    let mut drives: Vec<String> = names.filter(|n| n.contains("-2026-")).collect();
    drives.sort();
    assert_eq!(drives.len(), 12);
    drives.iter().map(|n| month(n)).collect()
}

type Row = BTreeMap<String, String>;

/// The rows of a CSV text, by the names of its columns.
fn rows(csv: &str) -> Vec<Row> {
    let mut lines = csv.lines();
    let header: Vec<&str> = lines.next().unwrap().split(',').collect();
    let row = |line: &str| {
        let fields: Vec<&str> = line.split(',').collect();
        assert_eq!(fields.len(), header.len(), "{line}");
        let named = header.iter().zip(fields);
        named.map(|(n, f)| (n.to_string(), f.to_string())).collect()
    };
    lines.map(row).collect()
}

/// What `trip --csv` writes with a status, and what it says.
fn trip(options: &[&str], files: &[String], status: i32) -> (Vec<Row>, String) {
    let files: Vec<&str> = files.iter().map(String::as_str).collect();
    let out = run(&[&["trip", RATE_OPTION, "--csv"], options, &files].concat());
    assert_eq!(out.status.code(), Some(status), "{}", text(&out.stderr));
    (rows(&text(&out.stdout)), text(&out.stderr))
}

fn whole(row: &Row, name: &str) -> u64 {
    row[name].parse().unwrap()
}

/// True metres by file name and depot.
fn truth() -> Vec<(String, String, f64)> {
    let read = fs::read_to_string(month("truth.csv")).unwrap();
    let one = |row: &Row| {
        (
            row["file"].clone(),
            row["depot"].clone(),
            row["true_m"].parse().unwrap(),
        )
    };
    rows(&read).iter().map(one).collect()
}

/// Writes the trips of some drives to a folder, and gives the file's path.
fn trips_in(at: &Path, files: &[String], options: &[&str]) -> String {
    let path = at.join("trips.csv").display().to_string();
    let files: Vec<&str> = files.iter().map(String::as_str).collect();
    let words = ["trip", RATE_OPTION, PATTERN, "--csv", "-o", &path];
    let out = run(&[&words[..], options, &files].concat());
    assert!(
        matches!(out.status.code(), Some(0 | 1)),
        "{}",
        text(&out.stderr)
    );
    path
}

fn ranked(options: &[&str], fuel: &str, trips: &str, status: i32) -> Vec<Row> {
    let out = run(&[&["rank", "--csv", "--fuel", fuel], options, &[trips]].concat());
    assert_eq!(out.status.code(), Some(status), "{}", text(&out.stderr));
    rows(&text(&out.stdout))
}

/// True millilitres for a kilometre of each depot: the fuel by the true lengths.
fn true_figures() -> BTreeMap<String, f64> {
    let (mut fuel, mut metres) = (BTreeMap::new(), BTreeMap::new());
    for row in rows(&fs::read_to_string(month("fuel.csv")).unwrap()) {
        *fuel.entry(row["depot"].clone()).or_insert(0.0) += whole(&row, "millilitres") as f64;
    }
    for (_, depot, length) in truth() {
        *metres.entry(depot).or_insert(0.0) += length;
    }
    fuel.into_iter()
        .map(|(depot, ml)| {
            let m = metres[&depot];
            (depot, ml * 1000.0 / m)
        })
        .collect()
}

fn assert_near(found: &str, truth: f64, per_cent: f64, what: &str) {
    let found: f64 = found.parse().unwrap();
    let off = 100.0 * (found - truth).abs() / truth;
    assert!(
        off <= per_cent,
        "{what}: {found}, truly {truth}: {off} % off"
    );
}

#[test]
fn the_figures_are_those_of_the_truth() {
    let at = folder("month");
    let trips = trips_in(&at, &drives(), &[]);
    for (row, (file, _, length)) in rows(&fs::read_to_string(&trips).unwrap())
        .iter()
        .zip(sorted_truth())
    {
        assert!(row["file"].ends_with(&file));
        assert_near(&row["distance_mm"], length * 1000.0, 0.05, &file);
        assert_eq!(whole(row, "trips"), 1);
        assert_eq!(row["gap_s"], "0.000");
    }
    let fuel = month("fuel.csv");
    let found = ranked(&[], &fuel, &trips, 1);
    let truth = true_figures();
    for row in &found {
        assert_near(&row["ml_per_km"], truth[&row["depot"]], 0.05, &row["depot"]);
    }
    // Best first; the depot in the tunnel is not ranked, unless that is allowed.
    let order = |rows: &[Row]| -> Vec<(String, String)> {
        rows.iter()
            .map(|r| (r["rank"].clone(), r["depot"].clone()))
            .collect()
    };
    let pairs =
        |list: [(&str, &str); 3]| list.map(|(a, b)| (a.to_string(), b.to_string())).to_vec();
    assert_eq!(
        order(&found),
        pairs([("1", "halle"), ("2", "leipzig"), ("", "dresden")])
    );
    assert_eq!(found[2]["note"], "coverage 0.7015 is below 0.9");
    let allowed = ranked(&["--min-coverage", "0.6"], &fuel, &trips, 0);
    assert_eq!(
        order(&allowed),
        pairs([("1", "halle"), ("2", "leipzig"), ("3", "dresden")])
    );
    // By the carrier distance alone the order of the first two is the wrong one.
    assert!(whole(&found[0], "ml_per_km_carrier") > whole(&found[1], "ml_per_km_carrier"));
}

fn sorted_truth() -> Vec<(String, String, f64)> {
    let mut truth = truth();
    truth.sort_by(|a, b| a.0.cmp(&b.0));
    truth
}

/// A drive with its rows from one second to another left out.
fn without(file: &str, from: u64, to: u64) -> String {
    let read = fs::read_to_string(file).unwrap();
    let kept = |line: &&str| {
        let tow = line.split(',').nth(1).unwrap();
        tow.parse::<u64>()
            .map_or(true, |tow| tow % 100 < from || tow % 100 >= to)
    };
    read.lines()
        .filter(kept)
        .map(|l| format!("{l}\n"))
        .collect()
}

/// A drive whose running count is turned into pulses since the epoch before.
fn with_pulses(csv: &str) -> String {
    let (mut out, mut at, mut last, mut pulses) = (String::new(), String::new(), 0, 0);
    for line in csv.lines() {
        let (start, count) = line.rsplit_once(',').unwrap();
        if count == "odometer" {
            out += &format!("{start},pulses\n");
            continue;
        }
        let (tow, count) = (
            line.split(',').nth(1).unwrap(),
            count.parse::<u64>().unwrap(),
        );
        if tow != at {
            pulses = if at.is_empty() { 55 } else { count - last };
            (at, last) = (tow.to_string(), count);
        }
        out += &format!("{start},{pulses}\n");
    }
    out
}

#[test]
fn thirty_seconds_without_rows() {
    let at = folder("gap");
    let (file, length) = ("leipzig-07-2026-11-03.csv", 871_000.0);
    // From the second 4 of the drive to 34.
    let cut = without(&month(file), 4, 34);
    let path = at.join(file).display().to_string();
    fs::write(&path, &cut).unwrap();
    let (found, said) = trip(&[], from_ref(&path), 0);
    assert_eq!((found[0]["gap_s"].as_str(), said.as_str()), ("30.000", ""));
    assert_near(&found[0]["distance_mm"], length, 0.5, "a running count");

    // In 16 bits the count may have wrapped unseen in a long gap, and not in a short one.
    assert_eq!(trip(&["--wrap", "16"], from_ref(&path), 0).1, "");
    let later = cut.replace("2443,20163", "2443,20263");
    let later = later.replace("2443,20164", "2443,20264");
    let days: String = later
        .lines()
        .take_while(|l| !l.starts_with("2443,20165"))
        .map(|l| format!("{l}\n"))
        .collect();
    fs::write(&path, days).unwrap();
    let (found, said) = trip(&["--wrap", "16"], from_ref(&path), 0);
    assert_eq!(found[0]["distance_mm"], "");
    assert!(
        said.contains("the count may have wrapped unseen in it; no distance"),
        "{said}"
    );

    fs::write(&path, with_pulses(&cut)).unwrap();
    let (found, said) = trip(&[], from_ref(&path), 0);
    assert_eq!(found[0]["gap_s"], "30.000");
    assert_eq!(
        (
            found[0]["coverage"].as_str(),
            found[0]["distance_mm"].as_str()
        ),
        ("", "")
    );
    assert!(
        said.contains("a gap of 30.000 s: pulses may have been lost in it; no distance"),
        "{said}"
    );
    let fuel = at.join("fuel.csv").display().to_string();
    fs::write(&fuel, "depot,millilitres\nleipzig,85\n").unwrap();
    let found = ranked(&[], &fuel, &trips_in(&at, &[path], &[]), 1);
    assert_eq!(
        (found[0]["rank"].as_str(), found[0]["ml_per_km"].as_str()),
        ("", "")
    );
    let note = "has no distance: pulses may be lost in its gap of 30.000 s";
    assert!(found[0]["note"].contains(note), "{}", found[0]["note"]);
}

/// An epoch of a recording: time of week, receiver, carriers, running count.
struct Epoch {
    tow: f64,
    at: [f64; 3],
    carriers: Vec<Carrier>,
    count: u64,
}

fn epochs(csv: &str) -> Vec<Epoch> {
    let mut out: Vec<Epoch> = Vec::new();
    for row in rows(csv) {
        let float = |name: &str| row[name].parse::<f64>().unwrap();
        let place = ["rx", "ry", "rz"].map(|n| row[n].parse().ok());
        if out.last().map_or(true, |e| e.tow != float("tow")) {
            let last = out.last().map_or([0.0; 3], |e| e.at);
            out.push(Epoch {
                tow: float("tow"),
                at: [0, 1, 2].map(|k| place[k].unwrap_or(last[k])),
                carriers: Vec::new(),
                count: whole(&row, "odometer"),
            });
        }
        if row["constellation"].is_empty() {
            continue;
        }
        out.last_mut().unwrap().carriers.push(Carrier {
            constellation: row["constellation"].parse().unwrap(),
            svid: row["svid"].parse().unwrap(),
            band: row["band"].parse().unwrap(),
            adr: float("adr"),
            state: 1,
            satellite: ["x", "y", "z"].map(float),
            elevation: float("elevation"),
            rate: float("rate"),
        });
    }
    out
}

/// The drive by the binding's own call, with settings from a time on; refusals by number beside it.
fn travelled(csv: &str, change: Option<(f64, Settings)>) -> (Drive, BTreeMap<u8, u64>) {
    let mut drive = Drive::begin(&Settings::default(), RATE).unwrap();
    let mut refused = BTreeMap::new();
    for pair in epochs(csv).windows(2) {
        let [before, now] = pair else { unreachable!() };
        if let Some((_, set)) = change.filter(|(from, _)| now.tow >= *from) {
            drive.change(&set).unwrap();
        }
        let [x, y, z] = before.at;
        let pulses = u16::try_from(now.count - before.count).unwrap();
        let dt = now.tow - before.tow;
        let moved = drive.travel(
            &before.carriers,
            &now.carriers,
            dt,
            Ecef::new(x, y, z),
            pulses,
        );
        if let Err(why) = moved {
            *refused.entry(why.number()).or_insert(0) += 1;
        }
    }
    (drive, refused)
}

#[test]
fn totals_are_those_of_the_binding() {
    let at = folder("settings");
    let changed = Settings {
        screen: 0.4,
        sigma_a: 0.01,
        sigma_b: 0.003,
        huber: 1.2,
        mask: 26.0,
        iterations: 3,
        ..Settings::default()
    };
    let path = at.join("settings.csv").display().to_string();
    let header = "week,tow,screen,sigma_a,sigma_b,huber,mask,rounds\n";
    // In force from the epoch at 40 s of either day; before that the defaults.
    let lines = "2443,201640,0.4,0.01,0.003,1.2,26,3\n2443,201700,0.5,0.008,0.002,1.5,10,4\n2445,201640,0.4,0.01,0.003,1.2,26,3\n";
    fs::write(&path, format!("{header}{lines}")).unwrap();
    for options in [vec![], vec!["--settings", path.as_str()]] {
        let (found, _) = trip(&options, &drives(), 0);
        for (row, file) in found.iter().zip(drives()) {
            let csv = fs::read_to_string(&file).unwrap();
            let change = (!options.is_empty()).then_some((201_640.0, changed));
            let (drive, refused) = travelled(&csv, change);
            let report = drive.trip().report().unwrap();
            let names = ["carrier_mm", "odometer_mm", "greatest_mm", "reached"];
            let expected = [
                report.carrier,
                report.odometer,
                report.greatest,
                report.reached,
            ];
            assert_eq!(names.map(|n| whole(row, n)), expected, "{file} {options:?}");
            let refused: Vec<String> = refused.iter().map(|(n, c)| format!("{n}:{c}")).collect();
            assert_eq!(row["refused"], refused.join(" "));
        }
    }
}

/// A drive without its odometer, and the count at times of its own.
fn two_recordings(csv: &str) -> (String, String) {
    let (mut drive, mut counts) = (String::new(), String::from("week,tow,odometer\n"));
    let mut last = String::new();
    for line in csv.lines() {
        let (start, count) = line.rsplit_once(',').unwrap();
        drive += &format!("{start}\n");
        let fields: Vec<&str> = line.split(',').collect();
        if count != "odometer" && fields[1] != last {
            last = fields[1].to_string();
            // A quarter of a second before the epoch, and a pulse after it.
            let tow: f64 = last.parse().unwrap();
            counts += &format!("{},{},{count}\n", fields[0], tow - 0.25);
            let next: u64 = count.parse().unwrap();
            counts += &format!("{},{},{}\n", fields[0], tow + 0.5, next);
        }
    }
    (drive, counts)
}

#[test]
fn every_form_of_the_odometer_gives_the_same() {
    let at = folder("forms");
    let name = "halle-04-2026-11-17";
    let csv = fs::read_to_string(month(&format!("{name}.csv"))).unwrap();
    let path = at.join(format!("{name}.csv")).display().to_string();
    let figures = |options: &[&str], csv: &str| {
        fs::write(&path, csv).unwrap();
        let (found, said) = trip(options, from_ref(&path), 0);
        assert_eq!(said, "");
        let names = [
            "carrier_mm",
            "odometer_mm",
            "pulses_all",
            "pulses_counted",
            "distance_mm",
        ];
        names.map(|n| found[0][n].clone())
    };
    let plain = figures(&[], &csv);
    assert_eq!(figures(&[], &with_pulses(&csv)), plain);
    let (drive, counts) = two_recordings(&csv);
    fs::write(at.join(format!("{name}.odo")), counts).unwrap();
    let second = at.join("{}.odo").display().to_string();
    assert_eq!(figures(&["--odometer", &second], &drive), plain);
    // The same count in 16 and in 32 bits, wrapping during the drive.
    for (bits, size) in [("16", 1u64 << 16), ("32", 1 << 32)] {
        let wrapped = |line: &str| match line.rsplit_once(',').unwrap() {
            (_, "odometer") => format!("{line}\n"),
            (start, count) => {
                let count: u64 = count.parse().unwrap();
                format!("{start},{}\n", (count + size - 11_000) % size)
            }
        };
        let wrapped: String = csv.lines().map(wrapped).collect();
        assert_eq!(figures(&["--wrap", bits], &wrapped), plain);
    }
}

#[test]
fn parts_of_a_drive() {
    // In the tunnel there are pulses and no satellites.
    let file = month("dresden-21-2026-11-03.csv");
    let (found, _) = trip(&[], from_ref(&file), 0);
    let row = &found[0];
    assert_eq!(
        (row["refused"].as_str(), row["week"].as_str()),
        ("7:10", "2443")
    );
    assert_eq!(
        (row["first_tow"].as_str(), row["last_tow"].as_str()),
        ("201600.0", "201690.0")
    );
    assert_eq!(whole(row, "epochs"), 45);
    let csv = fs::read_to_string(&file).unwrap();
    let counts: Vec<u64> = epochs(&csv).iter().map(|e| e.count).collect();
    assert_eq!(
        whole(row, "pulses_all"),
        counts[counts.len() - 1] - counts[0]
    );
    let scaled = whole(row, "counted_mm") * whole(row, "pulses_all") / whole(row, "pulses_counted");
    assert_eq!(whole(row, "distance_mm"), scaled);
    assert!(whole(row, "standing_mm") > 0);
    // Everything is set aside by a limit of nothing, and then there is no distance.
    let (found, said) = trip(&["--max-error", "0"], from_ref(&file), 1);
    assert_eq!(
        (
            whole(&found[0], "set_aside"),
            found[0]["distance_mm"].as_str()
        ),
        (35, "")
    );
    assert_eq!(found[0]["coverage"], "0.0000");
    assert!(said.contains("no epoch with pulses was counted"), "{said}");
    // GPS and Galileo are all there is, on one band.
    let (city, _) = trip(&["--city", "1575"], from_ref(&file), 0);
    assert_eq!(city[0]["carrier_mm"], row["carrier_mm"]);
    let (fuel, _) = trip(&["--millilitres", "120"], from_ref(&file), 0);
    assert_eq!(
        whole(&fuel[0], "ml_per_km_carrier"),
        120_000_000 / whole(row, "carrier_mm")
    );
    // A coverage below one half is warned of.
    let half = without(&file, 2, 60);
    let out = fed(&["trip", RATE_OPTION, "--csv"], half.as_bytes());
    assert!(
        text(&out.stderr).contains("% of its pulses are counted"),
        "{}",
        text(&out.stderr)
    );
}

#[test]
fn side_by_side_in_the_order_of_the_files() {
    let mut files = drives();
    files.reverse();
    let (one, _) = trip(&["--jobs", "1"], &files, 0);
    for jobs in ["2", "5", "40"] {
        assert_eq!(trip(&["--jobs", jobs], &files, 0).0, one);
    }
    let names: Vec<String> = one.iter().map(|r| r["file"].clone()).collect();
    assert_eq!(names, files);
}

#[test]
fn json() {
    let file = month("dresden-21-2026-11-03.csv");
    let out = run(&[
        "trip",
        RATE_OPTION,
        "--depot",
        "a \"b\" <c>",
        "--json",
        &file,
        &month("leipzig-07-2026-11-03.csv"),
    ]);
    let said = text(&out.stdout);
    assert!(
        said.starts_with("[\n{\"file\":\"") && said.ends_with("}\n]\n"),
        "{said}"
    );
    assert!(
        said.contains("\"depot\":\"a \\\"b\\\" <c>\",\"van\":null"),
        "{said}"
    );
    assert!(said.contains("\"refused\":{\"7\":10},"), "{said}");
    assert!(said.contains("\"refused\":{},"), "{said}");
}

/// Two epochs in turn, for ever further times: a drive of so many epochs.
fn long_drive(epochs: usize) -> String {
    let csv = fs::read_to_string(month("leipzig-07-2026-11-03.csv")).unwrap();
    let two: Vec<Vec<&str>> = [("201606,", 0), ("201608,", 1)]
        .iter()
        .map(|(tow, _)| csv.lines().filter(|l| l[5..].starts_with(tow)).collect())
        .collect();
    let mut out = csv.lines().next().unwrap().to_string() + "\n";
    for k in 0..epochs {
        for line in &two[k % 2] {
            let fields: Vec<&str> = line.split(',').collect();
            let middle = fields[2..14].join(",");
            out += &format!("2443,{},{middle},{}\n", 2 * k, 150 * k);
        }
    }
    out
}

#[test]
fn a_drive_past_65535_epochs() {
    // The rates do not fit the way back, so that the screen is left open.
    let csv = long_drive(70_001);
    let out = fed(
        &["trip", RATE_OPTION, "--csv", "--screen", "1e9"],
        csv.as_bytes(),
    );
    assert_eq!(out.status.code(), Some(0), "{}", text(&out.stderr));
    let found = rows(&text(&out.stdout));
    let row = &found[0];
    assert_eq!((whole(row, "epochs"), whole(row, "trips")), (70_000, 2));
    assert_eq!(whole(row, "pulses_all"), 150 * 70_000);
    let (carrier, odometer) = (whole(row, "carrier_mm"), whole(row, "odometer_mm"));
    assert_eq!(odometer, 150 * 70_000 * 1_000_000 / u64::from(RATE));
    // The difference grows with each epoch.
    assert_eq!(
        (whole(row, "greatest_mm"), whole(row, "reached")),
        (carrier.abs_diff(odometer), 70_000)
    );
    assert_eq!(whole(row, "counted_mm"), carrier);
    assert_eq!(whole(row, "distance_mm"), carrier);
    // Twice the way there and back is 65,535 epochs and some.
    let short = fed(
        &["trip", RATE_OPTION, "--csv", "--screen", "1e9"],
        long_drive(3).as_bytes(),
    );
    let once = whole(&rows(&text(&short.stdout))[0], "carrier_mm");
    assert_eq!(carrier, once * 35_000);
}
