//! `zaqnuti rinex` on damaged recordings: no position may move without a word.

#[path = "common/command.rs"]
mod command;

use std::fs;
use std::path::{Path, PathBuf};

use command::{examples, fed, folder, run, text};

/// How far a position may move without a word, m.
const FAR: f64 = 1.0;

/// A generator of random numbers (xorshift).
struct Random(u64);

impl Random {
    fn below(&mut self, n: usize) -> usize {
        self.0 ^= self.0 << 13;
        self.0 ^= self.0 >> 7;
        self.0 ^= self.0 << 17;
        (self.0 >> 11) as usize % n.max(1)
    }
}

/// A position and its time in s.
type Fix = (f64, [f64; 3]);

/// What a run gives: the status, the messages, and the fixes.
struct Answer {
    status: Option<i32>,
    words: String,
    fixes: Vec<Fix>,
}

/// A recording: its observation file and its navigation files.
struct Recording {
    name: String,
    files: Vec<Vec<u8>>,
    sound: Answer,
}

/// Writes the files of a recording and runs on them.
fn answer(room: &Path, files: &[Vec<u8>]) -> Answer {
    let mut words = vec!["rinex".to_string()];
    for (i, bytes) in files.iter().enumerate() {
        let at = room.join(format!("recording.{i}"));
        fs::write(&at, bytes).unwrap();
        words.push(at.display().to_string());
    }
    let words: Vec<&str> = words.iter().map(String::as_str).collect();
    let lines = run(&words);
    let found = fed(&["fix", "--receiver", "geodetic", "--csv"], &lines.stdout);
    let found = text(&found.stdout);
    let fixes = found.lines().skip(1).filter_map(|line| {
        let numbers: Vec<f64> = line.split(',').flat_map(str::parse).collect();
        let &[week, tow, x, y, z, ..] = numbers.as_slice() else {
            return None;
        };
        line.ends_with(",0")
            .then_some((week * 604_800.0 + tow, [x, y, z]))
    });
    Answer {
        status: lines.status.code(),
        words: text(&lines.stderr),
        fixes: fixes.collect(),
    }
}

fn recording(room: &Path, name: &str, paths: &[PathBuf]) -> Recording {
    let files: Vec<Vec<u8>> = paths.iter().map(|p| fs::read(p).unwrap()).collect();
    let sound = answer(room, &files);
    assert!(!sound.fixes.is_empty(), "{name}: {}", sound.words);
    Recording {
        name: name.to_string(),
        files,
        sound,
    }
}

/// The recordings of the repository, and those of the folder RECORDINGS: NAME.obs with NAME.nav.
fn recordings(room: &Path) -> Vec<Recording> {
    let made = Path::new(env!("CARGO_MANIFEST_DIR")).join("tests/rinex");
    let hour = examples().join("geonet");
    let mut all = vec![
        recording(
            room,
            "hour",
            &["o", "n"].map(|e| hour.join(format!("07590920.05{e}"))),
        ),
        recording(
            room,
            "sky",
            &["obs", "nav"].map(|e| made.join(format!("sky.{e}"))),
        ),
    ];
    let Ok(more) = std::env::var("RECORDINGS") else {
        return all;
    };
    let mut names: Vec<PathBuf> = fs::read_dir(more)
        .unwrap()
        .map(|f| f.unwrap().path())
        .collect();
    names.retain(|p| p.extension().is_some_and(|e| e == "obs") && p.with_extension("nav").exists());
    names.sort();
    for obs in names {
        let both = [obs.clone(), obs.with_extension("nav")];
        all.push(recording(room, &obs.display().to_string(), &both));
    }
    all
}

/// Damages a file in one of eight ways. Returns what was done.
fn damage(random: &mut Random, file: &mut Vec<u8>) -> String {
    let at = random.below(file.len());
    let mut lines: Vec<Vec<u8>> = file
        .split_inclusive(|b| *b == b'\n')
        .map(<[u8]>::to_vec)
        .collect();
    let line = random.below(lines.len());
    match random.below(10) {
        0..=3 => {
            let digit = (at..file.len())
                .find(|i| file[*i].is_ascii_digit())
                .unwrap_or(0);
            let new = b'0' + (file[digit].wrapping_sub(b'0') + 1 + random.below(9) as u8) % 10;
            file[digit] = new;
            return format!("digit at byte {digit} is {}", char::from(new));
        }
        4 => {
            file[at] = b' ' + random.below(95) as u8;
            return format!("byte {at} is {:?}", char::from(file[at]));
        }
        5 => {
            file.remove(at);
            return format!("byte {at} is lost");
        }
        6 => {
            file.truncate(at);
            return format!("cut at byte {at}");
        }
        7 => {
            let count = 1 + random.below(3) * random.below(10);
            let end = (line + count).min(lines.len());
            lines.drain(line..end);
            *file = lines.concat();
            return format!("lines {} to {end} are lost", line + 1);
        }
        8 => lines.insert(line, lines[line].clone()),
        _ => {
            let other = (line + 1).min(lines.len() - 1);
            lines.swap(line, other);
        }
    }
    *file = lines.concat();
    format!("line {} is doubled or swapped", line + 1)
}

/// Returns how far the fixes are from the sound ones that are nearest in time.
fn moved(sound: &[Fix], found: &[Fix]) -> f64 {
    let apart = |(time, place): &Fix| {
        let nearest = sound
            .iter()
            .min_by(|a, b| (a.0 - time).abs().total_cmp(&(b.0 - time).abs()));
        let squares = nearest
            .unwrap()
            .1
            .iter()
            .zip(place)
            .map(|(a, b)| (a - b).powi(2));
        squares.sum::<f64>().sqrt()
    };
    found.iter().map(apart).fold(0.0, f64::max)
}

/// Runs on damaged copies. Returns those that move a position without a word.
fn silent(name: &str, count: usize, seed: u64) -> Vec<String> {
    let room = folder(name);
    let all = recordings(&room);
    let mut random = Random(seed);
    let (mut out, mut told, mut farthest) = (Vec::new(), 0, 0.0_f64);
    for _ in 0..count {
        let one = &all[random.below(all.len())];
        let mut files = one.files.clone();
        let which = random.below(files.len());
        let what = damage(&mut random, &mut files[which]);
        let found = answer(&room, &files);
        assert!(found.status.is_some(), "{}: {what}", one.name);
        let word = (found.status, &found.words) != (one.sound.status, &one.sound.words);
        told += usize::from(word);
        let far = moved(&one.sound.fixes, &found.fixes);
        if !word {
            farthest = farthest.max(far);
        }
        if !word && far > FAR {
            out.push(format!("{}: file {which}: {what}: {far:.3} m", one.name));
        }
    }
    println!("{count} damaged: {told} told; without a word at most {farthest:.3} m");
    out
}

#[test]
fn damage_moves_no_position_without_a_word() {
    assert_eq!(silent("damage", 60, 1), Vec::<String>::new());
}

/// DAMAGED is how many, SEED where to begin, and RECORDINGS a folder of further ones.
#[test]
#[ignore = "takes some minutes"]
fn much_damage_moves_no_position_without_a_word() {
    let number = |name: &str, or: u64| std::env::var(name).ok().map_or(or, |n| n.parse().unwrap());
    let (count, seed) = (number("DAMAGED", 3_000) as usize, number("SEED", 1));
    let found = silent("much-damage", count, seed);
    assert_eq!(found, Vec::<String>::new(), "{} of {count}", found.len());
}
