//! `zaqnuti rinex`: a real recording, simulated ones of four systems, and damaged files.

use std::fs;
use std::path::{Path, PathBuf};
use std::process::{Command, Output, Stdio};

const COMMAND: &str = env!("CARGO_BIN_EXE_zaqnuti");
/// The receiver's true position in both recordings.
const TRUTH: [f64; 3] = [-3_976_219.508_2, 3_382_372.567_1, 3_652_512.984_9];

fn geonet(name: &str) -> String {
    let root = Path::new(env!("CARGO_MANIFEST_DIR"));
    let at = root.join("../../examples/geonet").join(name);
    at.display().to_string()
}

fn made(name: &str) -> String {
    let root = Path::new(env!("CARGO_MANIFEST_DIR"));
    root.join("tests/rinex").join(name).display().to_string()
}

fn hour() -> [String; 2] {
    [geonet("07590920.05o"), geonet("07590920.05n")]
}

fn sky() -> [String; 2] {
    [made("sky.obs"), made("sky.nav")]
}

/// Writes a temporary file.
fn file(name: &str, bytes: &[u8]) -> String {
    let at = Path::new(env!("CARGO_TARGET_TMPDIR")).join(format!("rinex-{name}"));
    fs::write(&at, bytes).unwrap();
    at.display().to_string()
}

fn run(words: &[&str]) -> Output {
    Command::new(COMMAND).args(words).output().unwrap()
}

fn text(bytes: &[u8]) -> String {
    String::from_utf8(bytes.to_vec()).unwrap()
}

/// Returns the output of a run without messages.
fn written(words: &[&str], [observations, navigation]: &[String; 2]) -> String {
    let out = run(&[&["rinex"], words, &[observations, navigation]].concat());
    assert_eq!(text(&out.stderr), "");
    assert_eq!(out.status.code(), Some(0));
    text(&out.stdout)
}

/// Returns the status and the messages of a run.
fn told(words: &[&str]) -> (Option<i32>, String) {
    let out = run(&[&["rinex"], words].concat());
    (out.status.code(), text(&out.stderr))
}

/// Returns some columns of a CSV, line by line.
fn columns(csv: &str, names: &[&str]) -> Vec<Vec<f64>> {
    let mut lines = csv.lines();
    let header: Vec<&str> = lines.next().unwrap().split(',').collect();
    let place = |name: &&str| header.iter().position(|h| h == name).unwrap();
    let places: Vec<usize> = names.iter().map(place).collect();
    let line = |l: &str| {
        let fields: Vec<&str> = l.split(',').collect();
        places.iter().map(|p| fields[*p].parse().unwrap()).collect()
    };
    lines.map(line).collect()
}

/// Returns the greatest error of the fixes, and their number.
fn farthest(csv: &str) -> (f64, usize) {
    let at = file(&format!("fix-{}.csv", csv.len()), csv.as_bytes());
    let out = run(&["fix", "--receiver", "geodetic", "--csv", &at]);
    assert_eq!(out.status.code(), Some(0), "{}", text(&out.stderr));
    let fixes = columns(&text(&out.stdout), &["x", "y", "z"]);
    let gap = |f: &Vec<f64>| {
        let squares = f.iter().zip(TRUTH).map(|(a, b)| (a - b).powi(2));
        squares.sum::<f64>().sqrt()
    };
    (fixes.iter().map(gap).fold(0.0, f64::max), fixes.len())
}

#[test]
fn the_hour_of_geonet_is_there_again() {
    let names = [
        "week",
        "tow",
        "constellation",
        "svid",
        "pseudorange",
        "carrier",
        "x",
        "y",
        "z",
        "clock",
        "modelled",
        "ionosphere",
        "elevation",
        "vx",
        "vy",
        "vz",
    ];
    let within = [
        0.0, 1e-6, 0.0, 0.0, 1e-3, 1e-3, 1e-3, 1e-3, 1e-3, 1e-3, 0.01, 0.01, 0.01, 1e-3, 1e-3, 1e-3,
    ];
    let ours = columns(&written(&[], &hour()), &names);
    let theirs = columns(&fs::read_to_string(geonet("rover.csv")).unwrap(), &names);
    assert_eq!((ours.len(), theirs.len()), (948, 948));
    for (a, b) in ours.iter().zip(&theirs) {
        for i in 0..names.len() {
            let both_none = a[i].is_nan() && (b[i].is_nan() || b[i] == 0.0);
            let near = (a[i] - b[i]).abs() <= within[i] + 1e-9;
            assert!(near || both_none, "{}: {} {}", names[i], a[i], b[i]);
        }
    }
    let (far, fixes) = farthest(&written(&[], &hour()));
    assert!(far < 3.0 && fixes == 120, "{far} {fixes}");
}

#[test]
fn four_systems_meet_at_the_truth() {
    let csv = written(&[], &sky());
    let systems = columns(&csv, &["constellation", "band"]);
    for (constellation, band) in [(1.0, 1575.0), (3.0, 1602.0), (5.0, 1561.0), (6.0, 1575.0)] {
        let own = systems.iter().filter(|s| s[..] == [constellation, band]);
        assert!(own.count() >= 7 * 8);
    }
    let (far, fixes) = farthest(&csv);
    assert!(far < 0.01 && fixes == 8, "{far}");
    // Each system alone.
    for system in ["G", "R", "E", "C"] {
        let (far, _) = farthest(&written(&["--systems", system], &sky()));
        assert!(far < 0.01, "{system}: {far}");
    }
    // With a given position and without models.
    let words = [
        "--at=-3976219.5082,3382372.5671,3652512.9849",
        "--no-models",
    ];
    let csv = written(&words, &sky());
    let zero = columns(&csv, &["modelled", "ionosphere"]);
    assert!(zero.iter().flatten().all(|x| *x == 0.0));
}

#[test]
fn a_receiver_without_a_place_gets_a_fix() {
    let text = fs::read_to_string(&sky()[0]).unwrap();
    let lines: Vec<&str> = text.lines().filter(|l| !l.contains("APPROX")).collect();
    let blank = file("blank.obs", (lines.join("\n") + "\n").as_bytes());
    let csv = written(&[], &[blank, sky()[1].clone()]);
    for place in columns(&csv, &["rx", "ry", "rz"]) {
        let gap = place.iter().zip(TRUTH).map(|(a, b)| (a - b).abs());
        assert!(gap.fold(0.0, f64::max) < 0.01);
    }
    // A wrong position in the header is reported and replaced.
    let far = text.replacen("-3976219.5082", "-3976919.5082", 1);
    let far = file("far.obs", far.as_bytes());
    let (status, why) = told(&[&far, &sky()[1]]);
    assert_eq!(status, Some(0));
    assert!(why.contains("in 8 epochs the fix is more than 20 m from the header's position"));
}

#[test]
fn epochs_are_thinned() {
    let times = |words: &[&str]| {
        let all = columns(&written(words, &hour()), &["tow"]);
        let mut all: Vec<f64> = all.into_iter().flatten().collect();
        all.dedup();
        all
    };
    assert_eq!(times(&[]).len(), 120);
    let thin = times(&["--every", "120"]);
    assert_eq!(thin.len(), 30);
    assert!(thin.windows(2).all(|w| (w[1] - w[0] - 120.0).abs() < 0.01));
}

#[test]
fn the_displacements_stand_still() {
    let at = file("hour.csv", written(&[], &hour()).as_bytes());
    let out = run(&["displacement", "--receiver", "geodetic", "--csv", &at]);
    assert_eq!(out.status.code(), Some(0));
    let moved = columns(&text(&out.stdout), &["dx", "dy", "dz"]);
    let squares: f64 = moved.iter().flatten().map(|x| x * x).sum();
    let error = (squares / moved.len() as f64).sqrt();
    assert!(moved.len() == 119 && error < 0.05, "{error}");
}

#[test]
fn packed_files_are_read() {
    for (name, path) in [("o", &hour()[0]), ("n", &hour()[1])] {
        let packed = Command::new("gzip")
            .args(["-c", path])
            .stdin(Stdio::null())
            .output();
        file(&format!("packed.05{name}.gz"), &packed.unwrap().stdout);
    }
    let at = |n: &str| -> PathBuf {
        Path::new(env!("CARGO_TARGET_TMPDIR")).join(format!("rinex-packed.05{n}.gz"))
    };
    let both = ["o", "n"].map(|n| at(n).display().to_string());
    assert_eq!(written(&[], &both), written(&[], &hour()));
    // A truncated file is reported.
    let bytes = fs::read(&both[0]).unwrap();
    let cut = file("cut.05o.gz", &bytes[..bytes.len() / 2]);
    let (status, why) = told(&[&cut, &both[1]]);
    assert_eq!(status, Some(2));
    let reasons = [
        "gzip can't decompress",
        "ends within",
        "is not an observation",
    ];
    assert!(reasons.iter().any(|r| why.contains(r)), "{why}");
}

/// Runs on the edited recording of GEONET. Returns the status and the messages.
fn edited(name: &str, edit: impl Fn(Vec<String>) -> Vec<String>) -> (Option<i32>, String) {
    let text = fs::read_to_string(&hour()[0]).unwrap();
    let lines = edit(text.lines().map(String::from).collect());
    let at = file(name, (lines.join("\n") + "\n").as_bytes());
    let (status, why) = told(&[&at, &hour()[1]]);
    (status, why.replace(&at, "OBS"))
}

#[test]
fn damage_is_told_by_file_and_line() {
    let line = |n: usize, text: &'static str| {
        move |mut lines: Vec<String>| {
            lines[n - 1] = text.to_string();
            lines
        }
    };
    let cut = |n: usize| {
        move |mut lines: Vec<String>| {
            lines.truncate(n);
            lines
        }
    };
    let insert = |n: usize, text: &'static [&'static str]| {
        move |mut lines: Vec<String>| {
            lines.splice(n - 1..n - 1, text.iter().map(|t| t.to_string()));
            lines
        }
    };
    type Edit = Box<dyn Fn(Vec<String>) -> Vec<String>>;
    let cases: Vec<(&str, Edit)> =
        vec![
        ("OBS:1: not a RINEX file", Box::new(|_| vec![])),
        (
            "OBS:1: not a RINEX file",
            Box::new(line(1, "week,tow,x,y,z")),
        ),
        ("OBS:9: the file ends within the header", Box::new(cut(9))),
        ("OBS:22: the file ends within an epoch", Box::new(cut(22))),
        ("OBS:18: empty; expected the flag of an epoch", Box::new(line(18, "05  4 3x"))),
        (
            "OBS:18: no such date",
            Box::new(line(18, " 05 13  2  0  0  0.0000000  0  1G 3")),
        ),
        (
            "OBS:19: \"247x7686.375\" is not an observation",
            Box::new(line(19, "  55923622.160    247x7686.375")),
        ),
        (
            "OBS:18: not the first line of an epoch",
            Box::new(line(18, " 05  4  2  0  0  0.0000000  9  8G 3")),
        ),
        (
            "OBS:27: a second header begins here",
            Box::new(|lines| [&lines[..26], &lines[..]].concat()),
        ),
        (
            "OBS:36: the epoch is not later than the previous one: two recordings in one file?",
            Box::new(|lines| [&lines[..35], &lines[17..]].concat()),
        ),
        (
            "OBS:20: the epoch has this satellite twice: two antennas in one file?",
            Box::new(line(
                18,
                " 05  4  2  0  0  0.0000000  0  8G 3G 3G 8G11G19G20G24G28",
            )),
        ),
        (
            "OBS:28: the antenna, position or observation types change here",
            Box::new(insert(
                27,
                &[
                    "                            4  1",
                    "                    TRM41249.00     NONE                    ANT # / TYPE",
                ],
            )),
        ),
        (
            "OBS:28: a new site begins here",
            Box::new(insert(
                27,
                &[
                    "                            3  1",
                    "0759                                                        MARKER NAME",
                ],
            )),
        ),
        (
            "OBS:12: an observation type is missing",
            Box::new(line(
                12,
                "     4    L1    C1    L2                                    # / TYPES OF OBSERV",
            )),
        ),
        (
            "OBS:12: these types belong to another version",
            Box::new(line(
                12,
                "G    4 C1C L1C D1C S1C                                      SYS / # / OBS TYPES",
            )),
        ),
        (
            "OBS:1: unsupported version",
            Box::new(line(
                1,
                "     4.00           OBSERVATION DATA    G (GPS)             RINEX VERSION / TYPE",
            )),
        ),
        (
            "OBS:1: Hatanaka-compressed",
            Box::new(line(
                1,
                "1.0                 COMPACT RINEX FORMAT                    CRINEX VERS   / TYPE",
            )),
        ),
        (
            "OBS:17: the header lists no pseudorange of the selected signals",
            Box::new(line(
                12,
                "     4    L1    S1    L2    P2                              # / TYPES OF OBSERV",
            )),
        ),
    ];
    for (i, (want, edit)) in cases.into_iter().enumerate() {
        let (status, why) = edited(&format!("damage-{i}.05o"), edit);
        assert!(
            status == Some(2) && why.contains(want),
            "{want}: {status:?} {why}"
        );
    }
}

#[test]
fn events_that_change_nothing_are_passed_over() {
    let (status, why) = edited("event.05o", |mut lines| {
        let event = [
            "                            4  2",
            "a comment within the file                                   COMMENT",
            "0759                                                        MARKER NAME",
        ];
        lines.splice(26..26, event.iter().map(|e| e.to_string()));
        lines
    });
    assert_eq!((status, why.as_str()), (Some(0), ""));
}

#[test]
fn a_pseudorange_that_misses_the_others_is_left_out_with_a_word() {
    let (status, why) = edited("miss.05o", |mut lines| {
        lines[20] = lines[20].replace("23407378.219", "23417378.219");
        lines
    });
    assert_eq!(status, Some(0));
    assert!(
        why.contains("1 whose pseudoranges disagree with the others"),
        "{why}"
    );
}

#[test]
fn a_digit_that_was_changed_is_told() {
    let change = |line: usize, from: &'static str, to: &'static str| {
        move |mut lines: Vec<String>| {
            assert!(lines[line - 1].contains(from), "{}", lines[line - 1]);
            lines[line - 1] = lines[line - 1].replacen(from, to, 1);
            lines
        }
    };
    // A time, in the middle and at the beginning; a pseudorange in the middle and at the beginning.
    let (status, why) = edited("late.05o", change(45, "0  1 30.0000000", "0  1 30.0100000"));
    assert_eq!(status, Some(1));
    let late = "1 of 120 epochs left out: 1 whose time is out of step with the others";
    assert!(why.contains(late), "{why}");
    let (status, why) = edited(
        "first.05o",
        change(18, "0  0  0.0000000", "0  0  0.0070000"),
    );
    assert_eq!(status, Some(1));
    assert!(why.contains(late) && why.contains("the first epoch is not that of the header"));
    let (status, why) = edited("range.05o", change(93, "23622022", "23622029"));
    assert_eq!(status, Some(0));
    assert!(why.contains("1 whose pseudoranges disagree"), "{why}");
    let (status, why) = edited("range.05o", change(21, "23407378.219", "23407370.219"));
    assert_eq!(status, Some(0));
    assert!(why.contains("1 carriers jump relative to code"), "{why}");
    // A number of the wrong width.
    let (status, why) = edited("width.05o", change(21, "  23407378.219", " 23407378.219 "));
    assert_eq!(status, Some(2));
    assert!(
        why.contains("OBS:21: \"23407378.219\" is not an observation"),
        "{why}"
    );
}

#[test]
fn a_header_that_contradicts_itself_is_told() {
    let types = "     4    L1    C1    L2    L2                              # / TYPES OF OBSERV";
    let (status, why) = edited("types.05o", |mut lines| {
        lines[11] = types.to_string();
        lines
    });
    assert!(
        status == Some(2) && why.contains("OBS:12: an observation type is listed twice"),
        "{why}"
    );
    let (status, why) = edited("system.05o", |mut lines| {
        lines[17] = lines[17].replace("G28", "S28");
        lines
    });
    assert!(
        status == Some(0) && why.contains("1 of systems that the header does not list"),
        "{why}"
    );
    let (status, why) = edited("sbas.05o", |mut lines| {
        lines[17] = lines[17].replace("G 8", "S 8");
        lines
    });
    assert!(
        status == Some(2) && why.contains("OBS:21: no satellite here"),
        "{why}"
    );
    let (status, why) = edited("event.05o", |mut lines| {
        lines[26] = lines[26].replace(" 0  8G", " 4  8G");
        lines
    });
    assert!(
        status == Some(2) && why.contains("OBS:28: no line of an event"),
        "{why}"
    );
}

/// Runs on the hour of GEONET with edited navigation. Returns the status and the messages.
fn sent(name: &str, from: &str, to: &str) -> (Option<i32>, String) {
    let navigation = fs::read_to_string(&hour()[1]).unwrap();
    assert!(navigation.contains(from), "{from}");
    let at = file(name, navigation.replacen(from, to, 1).as_bytes());
    let (status, why) = told(&[&hour()[0], &at]);
    (status, why.replace(&at, "NAV"))
}

#[test]
fn ephemerides_that_no_satellite_sent_are_told() {
    // The anomaly is no multiple of its unit, a time is another, an exponent is none, and a
    // correction of the radius, though a multiple, is 6 m off.
    for (from, to) in [
        ("2.871534990340D+00", "2.871544990340D+00"),
        (" 1 05  4  2  2  0  0.0", " 1 05  4  2  2 40  0.0"),
        ("4.026596389650D-09", "4.026596389650D-89"),
        ("-5.218750000000D+01", "-5.818750000000D+01"),
    ] {
        let (status, why) = sent("damaged.05n", from, to);
        assert_eq!(status, Some(0), "{why}");
        assert!(
            why.contains("NAV:14: 1 records left out, with numbers that no broadcast message has"),
            "{why}"
        );
    }
    // The semi-major axis is 10 km off, which is a multiple, and another orbit.
    let (status, why) = sent("axis.05n", "5.153750442500D+03", "5.154750442500D+03");
    assert_eq!(status, Some(0), "{why}");
    assert!(
        why.contains("ephemerides are left out, which contradict those before or after"),
        "{why}"
    );
    let (_, why) = sent("ionosphere.05n", "8.8060D+04", "8.8060D+14");
    assert!(
        why.contains("ionosphere parameters that no broadcast message has"),
        "{why}"
    );
    let (status, why) = sent("width.05n", "2.871534990340D+00", "2.87153499034D+00 ");
    assert!(
        status == Some(2) && why.contains("is not a number of 19 columns"),
        "{why}"
    );
}

/// Splits a file after its header.
fn parts(path: &str) -> (String, String) {
    let text = fs::read_to_string(path).unwrap();
    let end = text.find("END OF HEADER").unwrap();
    let end = end + text[end..].find('\n').unwrap() + 1;
    (text[..end].to_string(), text[end..].to_string())
}

#[test]
fn files_of_two_versions_are_told() {
    let ([obs_2, nav_2], [obs_3, nav_3]) = (hour(), sky());
    let mixed = |name: &str, head: &str, body: &str| {
        file(name, (parts(head).0 + &parts(body).1).as_bytes())
    };
    let obs_23 = mixed("23.obs", &obs_2, &obs_3);
    let obs_32 = mixed("32.obs", &obs_3, &obs_2);
    let nav_23 = mixed("23.nav", &nav_2, &nav_3);
    let nav_32 = mixed("32.nav", &nav_3, &nav_2);
    for (observations, navigation, want) in [
        (&obs_23, &nav_2, "23.obs:18: \"10  0.0000\" is not a second"),
        (&obs_32, &nav_3, "32.obs:10: not the first line of an epoch"),
        (
            &obs_2,
            &nav_23,
            "23.nav:14: \"E0\" is not the number of a satellite",
        ),
        (
            &obs_3,
            &nav_32,
            "32.nav:6: the line does not begin with a satellite",
        ),
    ] {
        let (status, why) = told(&[observations, navigation]);
        assert!(status == Some(2) && why.contains(want), "{why}");
    }
    // Observations of version 2 go with navigation of version 3.
    let (status, why) = told(&[&obs_2, &nav_3]);
    assert!(
        status == Some(2) && why.contains("nothing to write"),
        "{why}"
    );
}

#[test]
fn a_file_without_its_end_is_told() {
    let text = fs::read_to_string(&hour()[0]).unwrap();
    let whole = text.trim_end();
    let at = file("open.05o", whole.as_bytes());
    let (status, why) = told(&[&at, &hour()[1]]);
    assert!(
        status == Some(0) && why.contains(": the last line has no end"),
        "{why}"
    );
    let header = "  2005     4     2     1     0    0.0000000     GPS         TIME OF LAST OBS\n";
    let late = text.replacen(
        "                                                            END OF HEADER",
        &format!("{header}{}END OF HEADER", " ".repeat(60)),
        1,
    );
    let at = file("short.05o", late.as_bytes());
    let (status, why) = told(&[&at, &hour()[1]]);
    assert!(
        status == Some(0) && why.contains("the last epoch is not that of the header"),
        "{why}"
    );
}

#[test]
fn a_navigation_file_of_another_day_writes_nothing() {
    let (status, why) = told(&[&hour()[0], &sky()[1]]);
    assert_eq!(status, Some(2));
    assert!(
        why.contains("too old or too new") && why.contains("nothing to write"),
        "{why}"
    );
    let (status, why) = told(&[&hour()[1], &hour()[1]]);
    assert!(
        status == Some(2) && why.contains(":1: not an observation file"),
        "{why}"
    );
    let (status, why) = told(&[&hour()[0], &hour()[0]]);
    assert!(
        status == Some(2) && why.contains(":1: an observation file"),
        "{why}"
    );
    let (status, why) = told(&[&hour()[0]]);
    assert!(
        status == Some(2) && why.contains("NAV: a navigation file is needed"),
        "{why}"
    );
}

#[test]
fn a_recording_that_is_cut_anywhere_ends_with_a_word() {
    let bytes = fs::read(&sky()[0]).unwrap();
    for end in (0..bytes.len()).step_by(997) {
        let cut = file("cut.obs", &bytes[..end]);
        let out = run(&["rinex", &cut, &sky()[1]]);
        let last_line_is_whole = bytes[..end].ends_with(b"\n");
        assert_ne!(out.status.code(), None);
        assert!(!out.stderr.is_empty() || last_line_is_whole, "{end}");
        let csv = text(&out.stdout);
        if csv.lines().count() > 1 {
            let (far, _) = farthest(&csv);
            assert!(far < 0.1, "{end}: {far}");
        }
    }
}

#[test]
fn the_page_shows_what_is_written() {
    let root = Path::new(env!("CARGO_MANIFEST_DIR")).join("../..");
    let page = fs::read_to_string(root.join("docs/RINEX.md")).unwrap();
    let programs = Path::new(COMMAND).parent().unwrap().display();
    let path = format!("{programs}:{}", std::env::var("PATH").unwrap());
    let mut shown = 0;
    for block in page.split("\n\n") {
        let Some((command, want)) = block
            .strip_prefix("    $ ")
            .and_then(|b| b.split_once('\n'))
        else {
            continue;
        };
        let mut shell = Command::new("sh");
        shell.args(["-c", command]).env("PATH", &path);
        let out = shell.current_dir(&root).output().unwrap();
        let lines: Vec<&str> = want.lines().map(str::trim_start).collect();
        assert_eq!(text(&out.stdout).trim_end(), lines.join("\n"), "{command}");
        shown += 1;
    }
    assert_eq!(shown, 1);
}
