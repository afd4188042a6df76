//! The command `zaqnuti`: its answers, its files, and what it says to bad input of every kind.

use std::fs::{self, File};
use std::io::Write;
use std::os::unix::fs::{symlink, FileTypeExt};
use std::process::{Command, Stdio};
use std::thread;

use zaqnuti::line;

#[path = "common/command.rs"]
mod command;

use command::{answered, examples, fed, folder, said, text, COMMAND};

/// The receiver of examples/geonet, as an option.
const AT: &str = "--at=-3976219.5082,3382372.5671,3652512.9849";
const BASE_AT: &str = "--base-at=-3978242.4348,3382841.1715,3649902.7667";

fn geonet(name: &str) -> String {
    examples().join("geonet").join(name).display().to_string()
}

fn drive(name: &str) -> String {
    examples().join("drive").join(name).display().to_string()
}

/// The lines of rover.csv up to so many, header included.
fn rover(lines: usize) -> String {
    let whole = fs::read_to_string(geonet("rover.csv")).unwrap();
    whole
        .lines()
        .take(lines)
        .map(|l| format!("{l}\n"))
        .collect()
}

#[test]
fn help() {
    assert!(answered(&["--help"], 0).contains("Exit status"));
    assert_eq!(
        answered(&["--version"], 0),
        concat!("zaqnuti ", env!("CARGO_PKG_VERSION"), "\n")
    );
    for name in [
        "fix",
        "displacement",
        "corrections",
        "track",
        "trip",
        "rank",
        "encode",
        "decode",
        "plot",
    ] {
        let help = answered(&[name, "--help"], 0);
        assert!(help.starts_with(&format!("zaqnuti {name} ")), "{help}");
        assert!(help.lines().all(|l| l.len() <= 92), "{help}");
    }
    assert_eq!(said(&[], b""), "a command is required; see zaqnuti --help");
    assert_eq!(
        said(&["go"], b""),
        "go: no such command; see zaqnuti --help"
    );
    assert_eq!(
        said(&["fix", "--fast"], b""),
        "--fast: no such option; see --help"
    );
    assert_eq!(said(&["fix", "--mask"], b""), "--mask: needs a value");
    assert_eq!(
        said(&["fix", "--mask", "low"], b""),
        "--mask: \"low\" is not a number"
    );
    assert_eq!(
        said(&["fix", "--mask=5", "--mask=6"], b""),
        "--mask: given twice"
    );
    assert_eq!(
        said(&["fix", "--at=1,2"], b""),
        "--at: \"1,2\" is not a place X,Y,Z in metres"
    );
    let kind = "--receiver: \"tin\" is not phone or geodetic";
    assert_eq!(said(&["fix", "--receiver=tin"], b""), kind);
}

#[test]
fn fixes() {
    let rover = geonet("rover.csv");
    let words = answered(&["fix", "--receiver", "geodetic", &rover], 0);
    let first = "week 1316, 518400.000 s: -3976219.049 3382373.323 3652512.894 m; 7 used, chi 0.818, pdop 2.323";
    assert_eq!(words.lines().next(), Some(first));
    assert_eq!(words.lines().count(), 120);
    let csv = answered(&["fix", "--receiver", "geodetic", "--csv", &rover], 0);
    assert_eq!(
        csv.lines().next(),
        Some("week,tow,x,y,z,used,chi,pdop,refusal")
    );
    for (line, words) in csv.lines().skip(1).zip(words.lines()) {
        let f: Vec<f64> = line.split(',').map(|f| f.parse().unwrap()).collect();
        assert!(words.contains(&format!("{:.3} {:.3} {:.3} m", f[2], f[3], f[4])));
    }
    let high = answered(&["fix", "--mask", "50", &rover], 1);
    let refused = "refused by 8: there are fewer rows than 4 plus the clock slots";
    assert!(high.lines().next().unwrap().ends_with(refused));
    let csv = answered(&["fix", "--mask", "50", "--csv", &rover], 1);
    assert_eq!(csv.lines().nth(1), Some("1316,518400.0,,,,,,,8"));
}

#[test]
fn displacements() {
    let words = answered(&["displacement", &drive("drive.csv")], 1);
    let first = "01: -10.226 5.918 7.325 m, 13.901 m in all; 13 used, 0 screened";
    assert_eq!(words.lines().next(), Some(first));
    let bridge = "07: refused by 7: there are fewer than six carrier pairs";
    assert_eq!(words.lines().nth(6), Some(bridge));
    // The same bits as the line that answers the text.
    let csv = answered(&["displacement", "--csv", &drive("drive.csv")], 1);
    for row in csv.lines().skip(1) {
        let f: Vec<&str> = row.split(',').collect();
        let answer = line::answer(&fs::read(drive(&format!("{}.txt", f[2]))).unwrap());
        let bits = |x: &str| format!("{:016X}", x.parse::<f64>().unwrap().to_bits());
        let expected = match f[9] {
            "0" => format!(
                "A,{},{},{},{},{}\n",
                f[7],
                f[8],
                bits(f[4]),
                bits(f[5]),
                bits(f[6])
            ),
            number => format!("R,{number}\n"),
        };
        assert_eq!(text(answer.as_bytes()), expected);
    }
    // Along north, east and down the way is as long.
    let words = answered(&["displacement", "--compass", &drive("drive.csv")], 1);
    let first =
        "01: 11.386 m north, 7.971 m east, 0.273 m up, 13.901 m in all; 13 used, 0 screened";
    assert_eq!(words.lines().next(), Some(first));
    assert_eq!(words.lines().nth(6), Some(bridge));
    let compass = answered(
        &["displacement", "--compass", "--csv", &drive("drive.csv")],
        1,
    );
    for (row, plain) in compass.lines().zip(csv.lines()).skip(1) {
        let ned: Vec<&str> = row
            .strip_prefix(plain)
            .unwrap()
            .split(',')
            .skip(1)
            .collect();
        assert_eq!(ned.len(), 3);
        let square = |f: &[&str]| {
            f.iter()
                .map(|x| x.parse::<f64>().unwrap().powi(2))
                .sum::<f64>()
        };
        let f: Vec<&str> = plain.split(',').collect();
        if f[9] == "0" {
            assert!((square(&ned) - square(&f[4..7])).abs() < 1e-10);
        } else {
            assert_eq!(ned, [""; 3]);
        }
    }
    let rover = geonet("rover.csv");
    let still = answered(&["displacement", "--receiver=geodetic", AT, &rover], 0);
    assert_eq!(still.lines().count(), 119);
    let given = said(&["displacement", AT, &drive("drive.csv")], b"");
    assert!(given.starts_with("--at: the lines S of "));
    let place = said(&["displacement", &rover], b"");
    assert!(place.ends_with("has no columns rx, ry, rz; give --at X,Y,Z or --fixes FILE"));
}

/// The first two epochs of rover.csv, at the given weeks and times of week.
fn two_epochs(before: &str, now: &str) -> String {
    let whole = fs::read_to_string(geonet("rover.csv")).unwrap();
    let two = |line: &&str| {
        ["week,tow,", "1316,518400.", "1316,518430."]
            .iter()
            .any(|s| line.starts_with(s))
    };
    let lines = whole.lines().filter(two).map(|l| format!("{l}\n"));
    let text: String = lines.collect();
    text.replace("1316,518400.0000000,", before)
        .replace("1316,518430.0000000,", now)
}

#[test]
fn a_displacement_across_the_end_of_a_week() {
    let moved = |before: &str, now: &str, status: i32| {
        let words = ["displacement", "--csv", "--receiver=geodetic", AT];
        let out = fed(&words, two_epochs(before, now).as_bytes());
        assert_eq!(out.status.code(), Some(status));
        text(&out.stdout).lines().nth(1).unwrap().to_string()
    };
    let plain = moved("1316,518400,", "1316,518430,", 0);
    let answer = plain.strip_prefix("1316,518430.0,,30.0,").unwrap();
    // Saturday's last quarter of a minute and Sunday's first: the same 30 s, and the same bits.
    let across = moved("1316,604785,", "1317,15,", 0);
    assert_eq!(across, format!("1317,15.0,,30.0,{answer}"));
    // Exact to the nanosecond: the doubles are 29.999999999970896 apart.
    let odd = moved("1316,262130.1,", "1316,262160.1,", 0);
    assert_eq!(odd, format!("1316,262160.1,,30.0,{answer}"));
    assert!(moved("1316,604785,", "1316,15,", 1).ends_with(",5"));
    assert!(moved("1316,604785,", "1316,604815,", 1).ends_with(",13"));
    assert!(moved("15001,0,", "15001,30,", 1).ends_with(",13"));
    // Without weeks the difference of the times of week is the interval.
    let weekless = moved(",604785,", ",604815,", 0);
    assert_eq!(weekless, format!(",604815.0,,30.0,{answer}"));
}

/// The words of a correction by every other epoch of the base.
fn correction<'a>(base: &'a str, rest: &[&'a str]) -> Vec<&'a str> {
    let start = ["corrections", "--base", base, BASE_AT, "--every", "2"];
    [&start[..], rest].concat()
}

#[test]
fn corrections() {
    let corrected = folder("corrections").join("corrected.csv");
    let corrected = corrected.display().to_string();
    let (base, rover) = (geonet("base.csv"), geonet("rover.csv"));
    let words = answered(&correction(&base, &[&rover]), 1);
    let first = "week 1316, 518400.000 s, 1/3: -2.634 m";
    assert_eq!(words.lines().next(), Some(first));
    assert!(
        words.ends_with("refused by 12: the table gives no correction for the signal and time\n")
    );
    answered(&correction(&base, &["--csv", "-o", &corrected, &rover]), 1);
    let csv = fs::read_to_string(&corrected).unwrap();
    let header = csv.lines().next().unwrap();
    assert!(header.ends_with(",rate,correction,refusal"));
    assert_eq!(csv.lines().count(), 949);
    // A line without a satellite keeps its place.
    let tunnel = format!("{}1316,518415{}\n", self::rover(9), ",".repeat(15));
    let tunnel = fed(&correction(&base, &["--csv"]), tunnel.as_bytes());
    let last = format!("1316,518415{},,0", ",".repeat(15));
    assert_eq!(text(&tunnel.stdout).lines().last(), Some(last.as_str()));
    let fixed = fed(&["fix", "--csv"], &tunnel.stdout);
    assert!(text(&fixed.stdout).ends_with("1316,518415.0,,,,,,,8\n"));
    let twice = said(&correction(&base, &[&corrected]), b"");
    assert!(twice.ends_with("corrected.csv:1: has a column correction already"));
    let back = format!(
        "{}{}",
        self::rover(9),
        &self::rover(2)[self::rover(1).len()..]
    );
    let back = said(
        &correction(&base, &[]),
        back.replace("518400.0000000,1,28", "518401,1,28")
            .as_bytes(),
    );
    assert!(
        back.ends_with("518400.000 s is not after the one before it"),
        "{back}"
    );
}

#[test]
fn a_track() {
    let at = folder("track");
    let [fixed, moved] = ["fixed.csv", "moved.csv"].map(|n| at.join(n).display().to_string());
    let (rover, kind) = (geonet("rover.csv"), "--receiver=geodetic");
    answered(&["fix", kind, "--csv", "-o", &fixed, &rover], 0);
    let places = ["displacement", kind, "--fixes", &fixed, "--csv"];
    answered(&[&places[..], &["-o", &moved, &rover]].concat(), 0);
    let track = answered(&["track", "--csv", &fixed, &moved], 0);
    assert_eq!(track.lines().count(), 121);
    let last = track.lines().last().unwrap();
    assert!(
        last.starts_with("1316,521970.005,-39762") && last.ends_with(",0"),
        "{last}"
    );
    let both = said(&["displacement", AT, "--fixes", &fixed, &rover], b"");
    assert_eq!(both, "--at and --fixes: choose one");
}

#[test]
fn bad_tracks() {
    let none = fed(&["track"], b"tow,x,y,z\n");
    assert_eq!(none.status.code(), Some(1));
    assert!(text(&none.stdout).starts_with("refused by 6: the track has no epochs"));
    let jump = "tow,dt,dx,dy,dz\n1,1,0,0,0\n5,1,0,0,0\n";
    let start = "the displacement that ends at 1.000 s does not start at the epoch before";
    assert_eq!(said(&["track"], jump.as_bytes()), start);
    let long: String = (0..5000).map(|k| format!("{k},1,2,3\n")).collect();
    let long = fed(&["track"], format!("tow,x,y,z\n{long}").as_bytes());
    assert_eq!(long.status.code(), Some(1));
    let limit = "5000 epochs; a track has at most 1024";
    assert_eq!(text(&long.stdout), format!("refused by 2: {limit}\n"));
    let said = format!("zaqnuti: {limit}\nzaqnuti: 1 of 1 refused: 2 ×1\n");
    assert_eq!(text(&long.stderr), said);
}

/// A recording has the receiver at rx, ry, rz, once for each epoch, and the satellites at x, y, z.
#[test]
fn a_track_of_a_recording() {
    let head = "tow,constellation,svid,x,y,z,rx,ry,rz\n";
    let rows = "1,1,2,2e7,0,0,5,6,7\n1,1,3,0,2e7,0,,,\n2,,,,,,,,\n3,1,2,2e7,9,9,5,6,7\n";
    let out = fed(&["track", "--csv"], format!("{head}{rows}").as_bytes());
    // Nothing is known of the epoch in the tunnel.
    assert_eq!(out.status.code(), Some(1));
    let rows = rows.replace("2,,,,,,,,\n", "");
    let out = fed(&["track", "--csv"], format!("{head}{rows}").as_bytes());
    let expected = "week,tow,x,y,z,refusal\n,1.0,5.0,6.0,7.0,0\n,3.0,5.0,6.0,7.0,0\n";
    assert_eq!(text(&out.stdout), expected);
    let why = "x, y, z are the satellites'; the columns rx, ry, rz of a fix are missing";
    let bare = rover(9);
    assert_eq!(
        said(&["track"], bare.as_bytes()),
        format!("standard input:1: {why}")
    );
}

#[test]
fn encode_and_decode() {
    let at = folder("encode");
    let to = at.display().to_string();
    assert_eq!(
        answered(&["encode", "--to", &to, &drive("drive.csv")], 0),
        ""
    );
    let names: Vec<String> = (1..=10).map(|k| format!("{k:02}.txt")).collect();
    for name in &names {
        assert_eq!(
            fs::read(at.join(name)).unwrap(),
            fs::read(drive(name)).unwrap()
        );
    }
    let (texts, truth) = (
        names.iter().map(|n| drive(n)).collect::<Vec<_>>(),
        drive("truth"),
    );
    let words = ["decode", "--truth", &truth].into_iter();
    let words: Vec<&str> = words.chain(texts.iter().map(String::as_str)).collect();
    let stored = fs::read_to_string(drive("drive.csv")).unwrap();
    assert_eq!(answered(&words, 0), stored);
    let many = said(&["encode", &drive("drive.csv")], b"");
    assert!(many.ends_with("has more than one pair; give --to FOLDER"));
    let series = fed(&["encode", AT], rover(17).as_bytes());
    assert_eq!(series.status.code(), Some(0));
    assert_eq!(text(&series.stdout).lines().count(), 17);
    let rows = &rover(9)[rover(1).len()..];
    let crowd = format!(
        "{}{}",
        rover(17),
        rows.replace("518400", "518460").repeat(9)
    );
    let crowd = said(&["encode", "--to", &to, AT], crowd.as_bytes());
    assert!(
        crowd.ends_with("518460.000 s: has too many carriers for a text"),
        "{crowd}"
    );
    let outside = stored.replace("\n01,S", "\n../01,S");
    let name = said(&["encode", "--to", &to], outside.as_bytes());
    assert_eq!(name, "\"../01\" is not a file name");
}

/// Every kind of float, and many patterns.
fn patterns() -> Vec<u64> {
    let mut out: Vec<u64> = [
        0.0,
        -0.0,
        1.0,
        0.1,
        1e300,
        f64::MAX,
        f64::MIN_POSITIVE,
        5e-324,
        f64::INFINITY,
        f64::NEG_INFINITY,
        f64::NAN,
    ]
    .map(f64::to_bits)
    .to_vec();
    out.extend([
        0xFFF8_0000_0000_0000,
        0x7FF0_0000_0000_0001,
        0xFFFF_FFFF_FFFF_FFFF,
    ]);
    let mut seed = 1u64;
    while out.len() < 6 * 200 {
        seed = seed
            .wrapping_mul(6364136223846793005)
            .wrapping_add(1442695040888963407);
        out.push(seed ^ (seed >> 29));
    }
    out
}

#[test]
fn every_float_keeps_its_bits() {
    let hex: Vec<String> = patterns().iter().map(|b| format!("{b:016X}")).collect();
    let mut form = format!("S,{},4294967295\n", hex[..9].join(","));
    for (i, f) in hex.chunks(6).enumerate() {
        let letter = if i % 3 == 0 { 'C' } else { 'P' };
        let state = [1, 0, -1, i32::MIN, i32::MAX][i % 5];
        let floats = f[1..].join(",");
        form += &format!("{letter},255,65535,4294967295,{},{state},{floats}\n", f[0]);
    }
    let csv = fed(&["decode"], form.as_bytes());
    assert_eq!(
        (csv.status.code(), text(&csv.stderr)),
        (Some(0), String::new())
    );
    let again = fed(&["encode"], &csv.stdout);
    assert_eq!((again.status.code(), text(&again.stdout)), (Some(0), form));
}

#[test]
fn texts_that_break_the_form() {
    let good = fs::read_to_string(drive("01.txt")).unwrap();
    let broken = |from: &str, to: &str| said(&["decode"], good.replacen(from, to, 1).as_bytes());
    let digits = "standard input:1: dt: \"3ff0000000000000\" is not 16 digits 0-9, A-F";
    assert_eq!(broken("3FF0", "3ff0"), digits);
    for wrong in ["01", "256", "+1", "-1", "", "one"] {
        let expected = format!("standard input:2: constellation: {wrong:?} is not 0 to 255");
        assert_eq!(broken("P,1,5", &format!("P,{wrong},5")), expected);
    }
    let fields = "standard input:2: 10 fields, 11 are wanted";
    assert_eq!(broken("P,1,5,", "P,1,"), fields);
    let order = "S comes first and once, then P and C";
    assert_eq!(broken("P,", "S,"), format!("standard input:2: {order}"));
    assert_eq!(broken("S,", "A,"), format!("standard input:1: {order}"));
    let end = "standard input: is empty, or its last line has no end";
    assert_eq!(said(&["decode"], b""), end);
    assert_eq!(said(&["decode"], good.trim_end().as_bytes()), end);
    let long = said(&["decode"], &[b'S'; 32_769]);
    assert_eq!(long, "standard input: a text has at most 32768 bytes");
}

#[test]
fn plots() {
    let at = folder("plot");
    let picture = at.join("drive.svg").display().to_string();
    answered(&["plot", &drive("drive.csv"), "-o", &picture], 1);
    let [made, stored] = [&picture, &drive("drive.svg")].map(|p| fs::read_to_string(p).unwrap());
    assert_eq!(made, stored);
    let rover = geonet("rover.csv");
    answered(
        &["plot", "--receiver=geodetic", AT, &rover, "-o", &picture],
        0,
    );
    assert!(fs::read_to_string(&picture).unwrap().ends_with("</svg>\n"));
    assert_eq!(
        said(&["plot", &drive("drive.csv")], b""),
        "-o: is required; see --help"
    );
    let one = said(&["plot", AT, "-o", &picture], self::rover(9).as_bytes());
    assert_eq!(one, "standard input: has no pair of epochs");
}

#[test]
fn bad_headers() {
    let good = rover(9);
    let broken = |from: &str, to: &str| said(&["fix"], good.replacen(from, to, 1).as_bytes());
    let at = |why: &str| format!("standard input:1: the column {why}");
    assert_eq!(
        said(&["fix"], b""),
        "standard input: is empty; expected a header line"
    );
    assert_eq!(broken("elevation,", ""), at("\"elevation\" is missing"));
    let unknown = at("\"ionosfere\" is unknown; see --help, or give --ignore-unknown");
    assert_eq!(broken("ionosphere", "ionosfere"), unknown);
    assert_eq!(broken("vx,", "x,"), at("\"x\" appears twice"));
    let allowed = good.replacen("ionosphere", "ionosfere", 1);
    let allowed = fed(&["fix", "--ignore-unknown"], allowed.as_bytes());
    assert_eq!(allowed.status.code(), Some(0));
}

#[test]
fn bad_lines() {
    let good = rover(9);
    let broken = |from: &str, to: &str| said(&["fix"], good.replacen(from, to, 1).as_bytes());
    let (range, at) = ("24361934.1730", |why: &str| {
        format!("standard input:3: {why}")
    });
    assert_eq!(
        broken(range, "far"),
        at("pseudorange: \"far\" is not a number")
    );
    assert_eq!(
        broken(range, ""),
        at("pseudorange: empty; expected a number")
    );
    assert_eq!(
        broken(range, "'1'"),
        at("pseudorange: \"'1'\" is not a number")
    );
    let width = at("constellation: \"256\" is not a whole number from 0 to 255");
    assert_eq!(broken(",1,7,", ",256,7,"), width);
    assert_eq!(
        broken("518400.0000000,1,7", "nan,1,7"),
        at("tow: is not finite")
    );
    assert_eq!(broken(",7,", ",7,7,"), at("18 fields, the header has 17"));
    let after = |more: &[u8]| said(&["fix"], &[good.as_bytes(), more].concat());
    assert_eq!(
        after(b"\xff\xfe\n"),
        "standard input:10: the line is not UTF-8 text"
    );
    assert_eq!(
        after(b"1316,\0\n"),
        "standard input:10: 2 fields, the header has 17"
    );
    let long = said(&["fix"], &vec![b'x'; 48 << 20]);
    assert_eq!(long, "standard input:1: the line is above 65536 bytes");
}

#[test]
fn bad_pairs() {
    let head = "line,dt,x,y,z,screen,sigma_a,sigma_b,huber,mask,rounds,constellation,svid,band,adr,state,elevation,rate\n";
    let pair = format!("{head}S,1,0,0,0,0.5,1,0,1.5,10,4,,,,,,,\n");
    let alone = fed(&["displacement"], pair.as_bytes());
    assert_eq!(alone.status.code(), Some(1));
    assert!(text(&alone.stdout).starts_with("1: refused by 7: "));
    let cases = [
        (
            format!("{head}P,,1,2,3,,,,,,,1,2,3,4,1,5,6\n"),
            "line: no line S comes before it",
        ),
        (
            format!("{head}Q,,1,2,3,,,,,,,1,2,3,4,1,5,6\n"),
            "line: is not S, P or C",
        ),
        (
            pair.replace(",4,", ",-4,"),
            "rounds: \"-4\" is not a whole number from 0 to 4294967295",
        ),
    ];
    for (input, expected) in cases {
        let expected = format!("standard input:2: {expected}");
        assert_eq!(said(&["displacement"], input.as_bytes()), expected);
    }
}

#[test]
fn files_that_cannot_be_read() {
    let at = folder("unread").display().to_string();
    assert_eq!(said(&["fix", &at], b""), format!("{at}: is a folder"));
    assert_eq!(said(&["decode", &at], b""), format!("{at}: is a folder"));
    let twice = said(
        &["corrections", "--base", "-", BASE_AT],
        rover(9).as_bytes(),
    );
    assert_eq!(twice, "standard input: is read twice");
    let none = format!("{at}/none.csv");
    assert!(said(&["fix", &none], b"").starts_with(&format!("{none}: No such file")));
    let out = Command::new(COMMAND)
        .arg("fix")
        .stdin(File::open(&at).unwrap())
        .output()
        .unwrap();
    assert_eq!(out.status.code(), Some(2));
    assert!(text(&out.stderr).starts_with("zaqnuti: standard input: Is a directory"));
}

#[test]
fn other_line_ends() {
    let plain = fed(&["fix", "--csv"], rover(97).as_bytes());
    let crlf = rover(97).replace('\n', "\r\n");
    let marked = format!("\u{feff}{}\r\n\r\n", crlf.replace(',', " , "));
    for input in [crlf, marked, rover(97).trim_end().to_string()] {
        let out = fed(&["fix", "--csv"], input.as_bytes());
        assert_eq!(
            (out.status.code(), out.stdout),
            (Some(0), plain.stdout.clone())
        );
    }
}

#[test]
fn more_than_64_lines_in_an_epoch() {
    let (header, rest) = (rover(1), rover(2)[rover(1).len()..].to_string());
    let out = fed(
        &["fix"],
        format!("{header}{}", rest.repeat(100_000)).as_bytes(),
    );
    let expected = "week 1316, 518400.000 s: refused by 2: there are too many records, or a buffer is too short\n";
    assert_eq!(
        (out.status.code(), text(&out.stdout)),
        (Some(1), expected.to_string())
    );
}

/// The memory of a run does not grow with its input: 40 MB go through a process that may have 64.
#[test]
fn a_long_input_is_streamed() {
    let shell = format!("ulimit -v 65536; exec '{COMMAND}' fix --receiver geodetic");
    let mut child = Command::new("sh")
        .args(["-c", &shell])
        .stdin(Stdio::piped())
        .stdout(Stdio::piped())
        .spawn()
        .unwrap();
    let mut stdin = child.stdin.take().unwrap();
    let feeder = thread::spawn(move || {
        let (header, whole) = (rover(1), rover(1000));
        stdin.write_all(header.as_bytes()).unwrap();
        for _ in 0..250 {
            stdin.write_all(&whole.as_bytes()[header.len()..]).unwrap();
        }
    });
    let out = child.wait_with_output().unwrap();
    feeder.join().unwrap();
    assert_eq!(out.status.code(), Some(0));
    assert_eq!(text(&out.stdout).lines().count(), 250 * 120);
}

#[test]
fn a_closed_pipe_ends_a_run_quietly() {
    // The reader has ended before the run begins, so that no line of it finds room in the pipe.
    let mut reader = Command::new("true").stdin(Stdio::piped()).spawn().unwrap();
    let closed = reader.stdin.take().unwrap();
    reader.wait().unwrap();
    let out = Command::new(COMMAND)
        .args(["fix", &geonet("rover.csv")])
        .stdout(Stdio::from(closed))
        .stderr(Stdio::piped())
        .spawn()
        .unwrap()
        .wait_with_output()
        .unwrap();
    assert_eq!(
        (out.status.code(), text(&out.stderr)),
        (Some(2), String::new())
    );
}

#[test]
fn a_full_disk() {
    let full = || File::options().write(true).open("/dev/full").unwrap();
    for words in [
        vec!["fix", &geonet("rover.csv")],
        vec!["--help"],
        vec!["decode", &drive("01.txt")],
    ] {
        let out = Command::new(COMMAND)
            .args(&words)
            .stdout(full())
            .output()
            .unwrap();
        assert_eq!(out.status.code(), Some(2));
        let said = text(&out.stderr);
        assert!(
            said.starts_with("zaqnuti: standard output: No space left"),
            "{said}"
        );
    }
    let mute = Command::new(COMMAND).arg("go").stderr(full()).status();
    assert_eq!(mute.unwrap().code(), Some(2));
    let said = said(&["fix", "-o", "/dev/full", &geonet("rover.csv")], b"");
    assert!(said.starts_with("/dev/full: No space left"), "{said}");
    assert!(fs::metadata("/dev/full")
        .unwrap()
        .file_type()
        .is_char_device());
}

#[test]
fn nothing_is_half_written() {
    let at = folder("whole");
    let file = at.join("fixed.csv");
    let path = file.display().to_string();
    let broken = rover(97) + "1316,1,1\n";
    let why = said(&["fix", "-o", &path], broken.as_bytes());
    assert_eq!(why, "standard input:98: 3 fields, the header has 17");
    assert_eq!(fs::read_dir(&at).unwrap().count(), 0);

    fs::write(&file, "kept").unwrap();
    said(&["fix", "-o", &path], broken.as_bytes());
    assert_eq!(fs::read_to_string(&file).unwrap(), "kept");
    let link = at.join("link");
    symlink("fixed.csv", &link).unwrap();
    let out = fed(
        &["fix", "-o", &link.display().to_string()],
        rover(97).as_bytes(),
    );
    assert_eq!(out.status.code(), Some(0));
    assert!(fs::symlink_metadata(&link).unwrap().is_symlink());
    assert_eq!(fs::read_to_string(&file).unwrap().lines().count(), 12);
    assert_eq!(fs::read_dir(&at).unwrap().count(), 2);
    let nowhere = at.join("none/fixed.csv").display().to_string();
    assert!(said(&["fix", "-o", &nowhere, &geonet("rover.csv")], b"").contains("No such file"));
}

/// A long input at a terminal: how far it is goes to standard error, and is wiped at the end.
#[test]
fn progress() {
    if Command::new("script").arg("--version").output().is_err() {
        return;
    }
    let at = folder("progress");
    let half = at.join("half");
    let whole = rover(1000);
    let (header, rows) = whole.split_once('\n').unwrap();
    fs::write(&half, rows.repeat(9)).unwrap();
    let half = half.display();
    let shell = format!(
        "{{ echo {header}; cat {half}; sleep 0.7; cat {half}; }} | '{COMMAND}' fix >/dev/null"
    );
    let seen = |shell: &str| {
        let out = Command::new("script")
            .args(["-qec", shell, "/dev/null"])
            .output()
            .unwrap();
        text(&out.stdout)
    };
    let said = seen(&shell);
    assert!(
        said.contains("standard input: ") && said.contains(" lines, "),
        "{said:?}"
    );
    assert!(said.ends_with("\r\u{1b}[K"), "{said:?}");
    assert_eq!(
        seen(&format!(
            "'{COMMAND}' fix {} >/dev/null",
            geonet("rover.csv")
        )),
        ""
    );
}
