//! What `zaqnuti trip` and `zaqnuti rank` say to bad input, and what they leave.

#[path = "common/command.rs"]
mod command;

use std::fs::{self, File};
use std::os::unix::fs::symlink;
use std::path::Path;
use std::process::{Command, Stdio};

use command::{examples, fed, folder, run, said, text, COMMAND};

const RATE: &str = "--pulses-per-km=8000";

fn month(name: &str) -> String {
    examples().join("month").join(name).display().to_string()
}

fn drive() -> String {
    fs::read_to_string(month("leipzig-07-2026-11-03.csv")).unwrap()
}

/// What `trip` says to a text.
fn told(options: &[&str], csv: &str) -> String {
    let said = said(&[&["trip", RATE][..], options].concat(), csv.as_bytes());
    said.replace("standard input", "in")
}

/// A line of the drive changed by its number, counted from 1.
fn edited(number: usize, from: &str, to: &str) -> String {
    let one = |(i, line): (usize, &str)| match i + 1 == number {
        true => {
            assert!(line.contains(from), "{line}");
            format!("{}\n", line.replacen(from, to, 1))
        }
        false => format!("{line}\n"),
    };
    drive().lines().enumerate().map(one).collect()
}

#[test]
fn bad_drives() {
    let csv = drive();
    let header = csv.lines().next().unwrap();
    let wide = told(&[], &edited(3, ",1575,", ",1575,1,"));
    assert_eq!(wide, "in:3: 16 fields, the header has 15");
    assert_eq!(
        told(&[], &edited(3, "279.0006", "far")),
        "in:3: adr: \"far\" is not a number"
    );
    assert_eq!(
        told(&[], &edited(1, "elevation", "rate2")),
        unknown("rate2")
    );
    let missing = csv.replace(",elevation,", ",pdop,");
    assert_eq!(
        told(&[], &missing),
        "in:1: the column \"elevation\" is missing"
    );
    let none = "in:1: the column \"odometer\" or \"pulses\" is missing; or give --odometer FILE";
    assert_eq!(told(&[], &csv.replace("odometer", "chi")), none);
    let both = csv.replace(",band,", ",pulses,");
    let several = "in:1: odometer: the columns odometer and pulses; an odometer has one form only";
    assert_eq!(told(&[], &both), several);
    let counts = month("leipzig-12-2026-11-03.csv");
    let several =
        "in:1: odometer: --odometer and a column of the drive; an odometer has one form only";
    assert_eq!(told(&["--odometer", &counts], &csv), several);
    // Line 10 begins the second epoch, with 26 pulses.
    let rows = "in:11: odometer: 27 differs from 26 in the first row of its epoch";
    assert_eq!(told(&[], &edited(11, ",,,,26", ",,,,27")), rows);
    let all = |from: &str, to: &str| csv.replace(&format!(",{from}\n"), &format!(",{to}\n"));
    let many = "in:10: odometer: 65536 pulses since the epoch before; at most 65535";
    assert_eq!(told(&[], &all("26", "65536")), many);
    let pulses = csv.replace("odometer", "pulses");
    let pulses = pulses.replace(",26\n", ",65536\n");
    assert_eq!(told(&[], &pulses), "in:10: pulses: 65536 is above 65535");
    let back =
        "in:18: odometer: runs backwards, from 200 to 104; if it wraps, give --wrap 16 or 32";
    assert_eq!(told(&[], &all("26", "200")), back);
    let back = "in:18: odometer: runs backwards, from 200 to 104";
    assert_eq!(told(&["--wrap", "16"], &all("26", "200")), back);
    assert_eq!(
        told(&["--wrap", "16"], &all("26", "65536")),
        "in:10: odometer: 65536 is above 65535"
    );
    let time = "in:18: tow: week 2443, 201601.000 s is not after week 2443, 201602.000 s";
    assert_eq!(
        told(&[], &csv.replace("2443,201604,", "2443,201601,")),
        time
    );
    let week = "in:18: week: is empty in some lines and not in others";
    assert_eq!(told(&[], &csv.replace("2443,201604,", ",201604,")), week);
    assert_eq!(told(&[], ""), "in: is empty; expected a header line");
    assert_eq!(told(&[], &format!("{header}\n")), "in: has no epochs");
    let text = fs::read_to_string(examples().join("drive/drive.csv")).unwrap();
    let pairs = "in:1: line: a drive is a series of epochs; lines S, P and C have no times";
    assert_eq!(told(&[], &text), pairs);
}

fn unknown(name: &str) -> String {
    format!("in:1: the column {name:?} is unknown; see --help, or give --ignore-unknown")
}

#[test]
fn bad_options_of_a_trip() {
    let file = month("halle-03-2026-11-03.csv");
    let of = |options: &[&str]| said(&[&["trip"], options, &[file.as_str()]].concat(), b"");
    assert_eq!(of(&[]), "--pulses-per-km: is required; see --help");
    for rate in ["0", "65536", "-1", "many"] {
        let expected = format!("--pulses-per-km: {rate:?} is not 1 to 65535");
        assert_eq!(of(&["--pulses-per-km", rate]), expected);
    }
    let of = |options: &[&str]| of(&[&[RATE], options].concat());
    assert_eq!(of(&["--wrap", "8"]), "--wrap: \"8\" is not 16 or 32");
    assert_eq!(of(&["--jobs", "0"]), "--jobs: must be 1 or more");
    assert_eq!(
        of(&["--max-error", "nan"]),
        "--max-error: must be a number of at most 1e9"
    );
    assert_eq!(
        of(&["--rounds", "51"]),
        "the settings are refused by 3: a setting is not finite or above 1e9 in magnitude, or the rounds are not allowed"
    );
    assert_eq!(of(&["--csv", "--json"]), "--csv and --json: choose one");
    assert_eq!(of(&[&file]), format!("{file}: is given twice"));
    let fit = of(&["--name-pattern", "{depot}_{van}.csv"]);
    assert!(
        fit.ends_with("its name does not fit --name-pattern \"{depot}_{van}.csv\""),
        "{fit}"
    );
    let ways = of(&["--name-pattern", "{depot}-{van}.csv"]);
    assert!(ways.ends_with("in several ways"), "{ways}");
    let braces = of(&["--name-pattern", "{depot}-{car}.csv"]);
    assert!(
        braces.contains("other braces than {depot}, {van} and {day}"),
        "{braces}"
    );
    let two = of(&["--depot", "x", "--name-pattern", "{depot}-{van}-{day}.csv"]);
    assert_eq!(two, "--depot: --name-pattern has it as well");
    let comma = of(&["--csv", "--depot", "a,b"]);
    assert_eq!(comma, "depot: \"a,b\" can't be a field of CSV");
    let fuel = of(&["--millilitres", "5", &month("halle-04-2026-11-03.csv")]);
    assert_eq!(
        fuel,
        "--millilitres: is the fuel of one drive, but several are given"
    );
}

#[test]
fn bad_settings() {
    let at = folder("bad-settings");
    let path = at.join("settings.csv").display().to_string();
    let of = |lines: &str| {
        fs::write(
            &path,
            format!("week,tow,screen,sigma_a,sigma_b,huber,mask,rounds\n{lines}"),
        )
        .unwrap();
        let words = [
            "trip",
            RATE,
            "--settings",
            &path,
            &month("halle-03-2026-11-03.csv"),
        ];
        said(&words, b"").replace(&path, "settings")
    };
    let line = "0.5,0.008,0.002,1.5,10,4\n";
    // Both are long after the drive.
    let order = of(&format!("2500,9,{line}2500,8,{line}"));
    assert_eq!(
        order,
        "settings:3: tow: week 2500, 8.000 s is not after week 2500, 9.000 s"
    );
    let range = of("2443,9,0.5,0.008,0.002,1.5,10,51\n");
    assert_eq!(range, "settings:2: refused by 3: a setting is not finite or above 1e9 in magnitude, or the rounds are not allowed");
    assert_eq!(
        of("2443,9,wide,0.008,0.002,1.5,10,4\n"),
        "settings:2: screen: \"wide\" is not a number"
    );
}

/// The month's trips in a folder, and the fuel.
fn ledger(at: &Path) -> (String, String) {
    let [trips, fuel] = ["trips.csv", "fuel.csv"].map(|n| at.join(n).display().to_string());
    fs::copy(month("fuel.csv"), &fuel).unwrap();
    let files: Vec<String> = [
        "leipzig-07",
        "leipzig-12",
        "halle-03",
        "halle-04",
        "dresden-21",
        "dresden-22",
    ]
    .iter()
    .flat_map(|v| ["03", "17"].map(|d| month(&format!("{v}-2026-11-{d}.csv"))))
    .collect();
    let pattern = "--name-pattern={depot}-{van}-{day}.csv";
    let files = files.iter().map(String::as_str);
    let words: Vec<&str> = ["trip", RATE, pattern, "--csv", "-o", &trips]
        .into_iter()
        .chain(files)
        .collect();
    assert_eq!(run(&words).status.code(), Some(0));
    (trips, fuel)
}

#[test]
fn bad_fuel_and_trips() {
    let at = folder("bad-fuel");
    let (trips, fuel) = ledger(&at);
    let kept = at.join("kept.csv");
    fs::write(&kept, "kept").unwrap();
    let kept_path = kept.display().to_string();
    let (good_fuel, good_trips) = (
        fs::read_to_string(&fuel).unwrap(),
        fs::read_to_string(&trips).unwrap(),
    );
    let of = |new_fuel: &str, new_trips: &str| {
        fs::write(&fuel, new_fuel).unwrap();
        fs::write(&trips, new_trips).unwrap();
        let said = said(
            &[
                "rank", "--fuel", &fuel, "-o", &kept_path, "--html", &kept_path, &trips,
            ],
            b"",
        );
        assert_eq!(fs::read_to_string(&kept).unwrap(), "kept");
        said.replace(&at.display().to_string(), ".")
    };
    let fuel_of = |new: &str| of(new, &good_trips);
    let more = fuel_of(&format!("{good_fuel}jena,01,500\n"));
    assert_eq!(
        more,
        "./fuel.csv:8: depot: there is no trip of \"jena\", van \"01\""
    );
    let less = fuel_of(&good_fuel.replace("halle,04,201\n", ""));
    assert_eq!(less, "./trips.csv:8: depot: ./fuel.csv has no fuel for \"halle\", van \"04\", day \"2026-11-03\"");
    let twice = fuel_of(&format!("{good_fuel}halle,04,201\n"));
    assert_eq!(
        twice,
        "./fuel.csv:8: depot: ./fuel.csv:5 has the same already"
    );
    let two = fuel_of(&format!("{good_fuel}halle,,201\n"));
    assert_eq!(
        two,
        "./trips.csv:6: depot: ./fuel.csv:4 and ./fuel.csv:8 both have its fuel"
    );
    let digits = fuel_of(&good_fuel.replace("201", "2o1"));
    assert!(
        digits.starts_with("./fuel.csv:5: millilitres: \"2o1\" is not a whole number"),
        "{digits}"
    );
    assert_eq!(fuel_of("depot,millilitres\n"), "./fuel.csv: has no fuel");
    assert_eq!(
        fuel_of("depot\n"),
        "./fuel.csv:1: the column \"millilitres\" is missing"
    );
    let trips_of = |new: &str| of(&good_fuel, new);
    let again = good_trips.lines().nth(3).unwrap();
    let again = trips_of(&format!("{good_trips}{again}\n"));
    let at_4 = "leipzig-12-2026-11-03.csv\" is in ./trips.csv:4 already";
    assert!(
        again.starts_with("./trips.csv:14: file: the trip ") && again.ends_with(at_4),
        "{again}"
    );
    let (header, _) = good_trips.split_once('\n').unwrap();
    assert_eq!(
        trips_of(&format!("{header}\n")),
        "./trips.csv: has no trips"
    );
    assert_eq!(
        trips_of(""),
        "./trips.csv: is empty; expected a header line"
    );
    let refused = trips_of(&good_trips.replace(",7:3,", ",seven,"));
    assert_eq!(refused, "./trips.csv:6: refused: is not as in 7:3 8:28");
    let missing = trips_of(&good_trips.replace("carrier_mm", "chi"));
    assert_eq!(
        missing,
        "./trips.csv:1: the column \"carrier_mm\" is missing"
    );
}

#[test]
fn what_is_missing_may_be_listed() {
    let at = folder("missing");
    let (trips, fuel) = ledger(&at);
    let good = fs::read_to_string(&fuel).unwrap();
    let ranked = |new: &str, options: &[&str]| {
        fs::write(&fuel, new).unwrap();
        let out = run(&[
            &["rank", "--csv", "--fuel", &fuel],
            options,
            &[trips.as_str()],
        ]
        .concat());
        assert_eq!(out.status.code(), Some(1), "{}", text(&out.stderr));
        text(&out.stdout).replace(&at.display().to_string(), ".")
    };
    let jena = ranked(&format!("{good}jena,01,500\n"), &["--allow-missing"]);
    assert!(
        jena.contains("\n,jena,,,,,,,0,./fuel.csv:8 has fuel without a trip; there are no trips\n"),
        "{jena}"
    );
    let halle = ranked(&good.replace("halle,04,201\n", ""), &["--allow-missing"]);
    assert!(
        halle.contains("halle-04-2026-11-03.csv has no fuel; "),
        "{halle}"
    );
    let empty = ranked(&good.replace("halle,04,201\n", "halle,04,\n"), &[]);
    assert!(
        empty.contains(",./fuel.csv:5 leaves the fuel out\n"),
        "{empty}"
    );
}

#[test]
fn an_idle_van_and_an_odometer_that_differs() {
    let at = folder("idle");
    let (trips, fuel) = ledger(&at);
    let good = fs::read_to_string(&trips).unwrap();
    let idle = "idle.csv,leipzig,99,2026-11-03,2443,1.0,9.0,8,,300,0,300,8,0,300,0,0,0,,,0.000,1\n";
    fs::write(&trips, format!("{good}{idle}")).unwrap();
    fs::write(
        &fuel,
        fs::read_to_string(&fuel).unwrap() + "leipzig,99,10\n",
    )
    .unwrap();
    let words = [
        "rank",
        "--csv",
        "--min-coverage",
        "0.6",
        "--fuel",
        &fuel,
        &trips,
    ];
    let out = run(&words);
    assert_eq!(out.status.code(), Some(0), "{}", text(&out.stderr));
    let out = text(&out.stdout);
    let leipzig = out.lines().find(|l| l.contains("leipzig")).unwrap();
    assert!(leipzig.starts_with("2,leipzig,100.704,"), "{leipzig}");
    assert!(
        leipzig.ends_with(",5,1 idle trip: its fuel is counted"),
        "{leipzig}"
    );
    // The same distances, with an odometer that reads far too much.
    let far = |line: &str| match line.split(',').nth(10).filter(|_| line.contains("halle")) {
        Some(mm) => line.replacen(mm, &format!("1{mm}"), 1) + "\n",
        None => format!("{line}\n"),
    };
    let far: String = good.lines().map(far).collect();
    fs::write(&trips, format!("{far}{idle}")).unwrap();
    let out = run(&words);
    assert_eq!(out.status.code(), Some(1));
    let out = text(&out.stdout);
    assert!(
        out.lines()
            .last()
            .unwrap()
            .contains("; at most 3 % is allowed"),
        "{out}"
    );
    let wide = run(&[&words[..], &["--max-difference", "90"]].concat());
    assert_eq!(wide.status.code(), Some(0));
}

#[test]
fn a_page_shows_names_as_text() {
    let at = folder("page-names");
    let (trips, fuel) = ledger(&at);
    let name = "<script>alert('x')</script> & \u{e9}";
    for path in [&trips, &fuel] {
        let text = fs::read_to_string(path).unwrap();
        fs::write(path, text.replace("leipzig,", &format!("{name},"))).unwrap();
    }
    let page = at.join("page.html").display().to_string();
    let out = run(&["rank", "--fuel", &fuel, "--html", &page, &trips]);
    assert_eq!(out.status.code(), Some(1), "{}", text(&out.stderr));
    let html = fs::read_to_string(&page).unwrap();
    assert!(html.contains("2. &lt;script&gt;alert(&#39;x&#39;)&lt;/script&gt; &amp; \u{e9}</span>"));
    assert_eq!(html.matches("<script>").count(), 1);
    for part in [
        "url(#hatch)",
        "Not ranked: coverage 0.7015 is below 0.9.",
        "2026-11-03 to 2026-11-17",
        concat!("zaqnuti ", env!("CARGO_PKG_VERSION")),
        "Not proved: ",
    ] {
        assert!(html.contains(part), "{part}");
    }
    for outside in ["http:", "https:", "src=", "@import"] {
        assert!(
            !html.replace("http-equiv", "").contains(outside),
            "{outside}"
        );
    }
}

#[test]
fn outputs_that_fail() {
    let at = folder("outputs");
    let (trips, fuel) = ledger(&at);
    let file = month("halle-03-2026-11-03.csv");
    for words in [
        vec!["trip", RATE, "-o", "/dev/full", &file],
        vec!["rank", "--fuel", &fuel, "-o", "/dev/full", &trips],
    ] {
        let said = said(&words, b"");
        assert!(said.starts_with("/dev/full: No space left"), "{said}");
    }
    let full = File::options().write(true).open("/dev/full").unwrap();
    let out = Command::new(COMMAND)
        .args(["trip", RATE, "--jobs", "3", &file])
        .stdout(full)
        .output()
        .unwrap();
    assert_eq!(out.status.code(), Some(2));
    // The reader has ended before the run begins.
    let mut reader = Command::new("true").stdin(Stdio::piped()).spawn().unwrap();
    let closed = reader.stdin.take().unwrap();
    reader.wait().unwrap();
    let mut quiet = Command::new(COMMAND);
    quiet
        .args(["trip", RATE, &file])
        .stdout(Stdio::from(closed))
        .stderr(Stdio::piped());
    let out = quiet.spawn().unwrap().wait_with_output().unwrap();
    assert_eq!(
        (out.status.code(), text(&out.stderr)),
        (Some(2), String::new())
    );
    // Bad input leaves the old file, and no part of a new one.
    let old = at.join("old.csv");
    fs::write(&old, "kept").unwrap();
    let path = old.display().to_string();
    let before = fs::read_dir(&at).unwrap().count();
    said(
        &["trip", RATE, "--jobs", "2", "-o", &path, &file, "-"],
        edited(300, "2443", "24x3").as_bytes(),
    );
    assert_eq!(fs::read_to_string(&old).unwrap(), "kept");
    assert_eq!(fs::read_dir(&at).unwrap().count(), before);
}

#[test]
fn an_output_is_no_input() {
    let at = folder("onto");
    let (trips, fuel) = ledger(&at);
    let [link, hard] = ["link.csv", "hard.csv"].map(|n| at.join(n));
    symlink("trips.csv", &link).unwrap();
    fs::hard_link(&trips, &hard).unwrap();
    let before = fs::read_to_string(&trips).unwrap();
    for onto in [
        trips.clone(),
        link.display().to_string(),
        hard.display().to_string(),
    ] {
        let said = said(&["rank", "--fuel", &fuel, "-o", &onto, &trips], b"");
        assert_eq!(said, format!("{onto}: is an input, and would be replaced"));
        assert_eq!(fs::read_to_string(&trips).unwrap(), before);
    }
    let page = said(&["rank", "--fuel", &fuel, "--html", &fuel, &trips], b"");
    assert_eq!(page, format!("{fuel}: is an input, and would be replaced"));
    let drive = at.join("drive.csv").display().to_string();
    fs::copy(month("halle-03-2026-11-03.csv"), &drive).unwrap();
    let before = fs::read_to_string(&drive).unwrap();
    for words in [
        vec!["displacement"],
        vec!["trip", RATE],
        vec!["plot"],
        vec!["track"],
    ] {
        let said = said(&[&words[..], &["-o", &drive, &drive]].concat(), b"");
        assert!(
            said.ends_with("is an input, and would be replaced"),
            "{said}"
        );
        assert_eq!(fs::read_to_string(&drive).unwrap(), before);
    }
}

#[test]
fn several_files_and_files_without_a_pair() {
    let [one, two] = ["halle-03-2026-11-03.csv", "halle-04-2026-11-03.csv"].map(month);
    let out = run(&["displacement", "--csv", &one, &two]);
    let csv = text(&out.stdout);
    assert!(csv.starts_with("file,week,tow,pair,dt,"));
    assert_eq!(
        csv.lines()
            .filter(|l| l.starts_with(&format!("{two},2443,")))
            .count(),
        45
    );
    assert_eq!(text(&out.stderr), "zaqnuti: 6 of 90 refused: 7 ×6\n");
    let first: String = drive().lines().take(9).map(|l| format!("{l}\n")).collect();
    let out = fed(&["displacement"], first.as_bytes());
    let warning = "zaqnuti: warning: standard input: has no pair of epochs\n";
    assert_eq!(
        (out.status.code(), text(&out.stderr)),
        (Some(0), warning.to_string())
    );
    let out = fed(&["trip", RATE], first.as_bytes());
    assert_eq!(out.status.code(), Some(1));
    let said = "zaqnuti: warning: standard input: has no pair of epochs\nzaqnuti: standard input: no epoch with pulses was counted\n";
    assert_eq!(text(&out.stderr), said);
}

#[test]
fn names_that_are_nearly_known() {
    let csv = drive();
    for (from, to, how) in [
        (",band,", ",Band,", "\"band\" by its case"),
        (",band,", ",\"band\",", "\"band\" by its quotes"),
        (",band,", ",bond,", "\"band\" by one letter"),
        (",band,", ",bands,", "\"band\" by one letter"),
    ] {
        let out = fed(
            &["displacement", "--ignore-unknown", "--csv"],
            csv.replacen(from, to, 1).as_bytes(),
        );
        assert_eq!(out.status.code(), Some(0));
        let name = to.trim_matches(',');
        let warning = format!("zaqnuti: warning: standard input:1: the column {name:?} is not read; it differs from {how}\n");
        assert_eq!(text(&out.stderr), warning);
    }
    let far = fed(
        &["displacement", "--ignore-unknown"],
        csv.replacen(",band,", ",colour,", 1).as_bytes(),
    );
    assert_eq!(text(&far.stderr), "");
}

/// Memory does not grow with the input: 40 MB of rows go through a process that may have 64.
#[test]
fn a_long_drive_is_streamed() {
    let shell = format!("ulimit -v 65536; exec '{COMMAND}' trip {RATE} --jobs 1 --csv");
    let mut child = Command::new("sh")
        .args(["-c", &shell])
        .stdin(Stdio::piped())
        .stdout(Stdio::piped())
        .stderr(Stdio::null())
        .spawn()
        .unwrap();
    let mut stdin = child.stdin.take().unwrap();
    let feeder = std::thread::spawn(move || {
        use std::io::Write;
        // Counts that begin anew each day are taken as pulses.
        let csv = drive().replace("odometer", "pulses");
        let (header, rows) = csv.split_once('\n').unwrap();
        writeln!(stdin, "{header}").unwrap();
        for day in 0..1200 {
            let later = rows.replace("2443,2016", &format!("{},2016", 2443 + day));
            stdin.write_all(later.as_bytes()).unwrap();
        }
    });
    let out = child.wait_with_output().unwrap();
    feeder.join().unwrap();
    assert_eq!(out.status.code(), Some(0));
    let line = text(&out.stdout);
    let fields: Vec<&str> = line.lines().nth(1).unwrap().split(',').collect();
    assert_eq!((fields[7], fields[4]), ("55199", "2443"));
}

/// A drive without its odometer beside a second recording.
#[test]
fn bad_second_recordings() {
    let at = folder("second");
    let counts = at.join("counts.csv").display().to_string();
    let bare: String = drive()
        .lines()
        .map(|l| format!("{}\n", l.rsplit_once(',').unwrap().0))
        .collect();
    let out = |lines: &str| {
        fs::write(&counts, format!("week,tow,odometer\n{lines}")).unwrap();
        let out = fed(
            &["trip", RATE, "--csv", "--odometer", &counts],
            bare.as_bytes(),
        );
        let said = text(&out.stderr).replace(&counts, "counts");
        (out.status.code(), said, text(&out.stdout))
    };
    let bad = |lines: &str, why: &str| {
        let (status, said, _) = out(lines);
        assert_eq!((status, said), (Some(2), format!("zaqnuti: {why}\n")));
    };
    bad("", "counts: has no counts");
    let back = "runs backwards, from 9 to 8; if it wraps, give --wrap 16 or 32";
    let first = "2443,201600,9\n";
    bad(
        &format!("{first}2443,201601,8\n"),
        &format!("counts:3: odometer: {back}"),
    );
    let time = "week 2443, 201599.000 s is not after week 2443, 201600.000 s";
    bad(
        &format!("{first}2443,201599,9\n"),
        &format!("counts:3: tow: {time}"),
    );
    let weeks = "counts: it and the drive must both have weeks, or neither";
    bad(",201600,9\n", weeks);
    let many = "standard input:10: odometer: 65536 pulses since the epoch before; at most 65535";
    bad(&format!("{first}2443,201602,65545\n"), many);
    // It begins after two epochs, and ends 58 s before the drive.
    let lines: String = (4..32)
        .map(|t| format!("2443,{},{}\n", 201_600 + t, 80 * t))
        .collect();
    let (status, said, csv) = out(&lines);
    assert_eq!(status, Some(0), "{said}");
    let early = "2 epochs before the odometer's first count are left out";
    let short = "the odometer's recording ends 59.000 s before the drive";
    let expected = [early, short].map(|why| format!("zaqnuti: warning: standard input: {why}\n"));
    assert_eq!(said, expected.concat());
    let fields: Vec<&str> = csv.lines().nth(1).unwrap().split(',').collect();
    // The last count is at 31 s; the epoch at 32 s is the first to have it.
    assert_eq!((fields[7], fields[17]), ("43", &*(80 * 27).to_string()));
}

/// Each drive's fixes by its name.
#[test]
fn fixes_of_each_drive() {
    let at = folder("fixes");
    let file = month("halle-03-2026-11-03.csv");
    let csv = fs::read_to_string(&file).unwrap();
    let mut fixes = String::from("week,tow,x,y,z,refusal\n");
    for line in csv.lines().skip(1) {
        let f: Vec<&str> = line.split(',').collect();
        if !f[11].is_empty() {
            fixes += &format!("{},{},{},{},{},0\n", f[0], f[1], f[11], f[12], f[13]);
        }
    }
    fs::write(at.join("halle-03-2026-11-03.fixes"), fixes).unwrap();
    let pattern = at.join("{}.fixes").display().to_string();
    let plain = run(&["trip", RATE, "--csv", &file]);
    let fixed = run(&["trip", RATE, "--csv", "--fixes", &pattern, &file]);
    assert_eq!(text(&fixed.stderr), "");
    assert_eq!(text(&fixed.stdout), text(&plain.stdout));
}
