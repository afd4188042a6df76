//! The published Rust as the judge of the Rattle library: comparison, speed, accuracy, stored answers.

mod bench;
mod big;
#[cfg(test)]
mod edges;
mod estimate;
mod ffi;
#[cfg(feature = "fuzz")]
mod fuzz;
mod instructions;
mod line_form;
mod numbers;
mod random;
mod rated;
mod rules;
mod services;
mod sky;
mod system;
mod tally;
mod vectors;

use random::Random;
use services::{Service, KINDS, SERVICES};
use std::process::ExitCode;
use std::sync::atomic::Ordering;
use tally::Tally;
use vectors::{Stream, AS_THEY_COME};

const USAGE: &str = "oracle compare [--seed S] [--count N] [SERVICE..]
oracle bench [--instructions] [SERVICE..]
oracle accuracy [--seed S] [--count N]
oracle vectors [--seed S] [--count N] [FILE]";

/// What the command line says.
struct Arguments {
    seed: u64,
    count: Option<u64>,
    /// Count instructions by callgrind; `counted` is the run under it.
    instructions: bool,
    counted: bool,
    words: Vec<String>,
}

/// The flags, and the words that are none.
fn arguments(mut given: impl Iterator<Item = String>) -> Result<Arguments, String> {
    let mut out = Arguments {
        seed: 1,
        count: None,
        instructions: false,
        counted: false,
        words: Vec::new(),
    };
    while let Some(word) = given.next() {
        let mut number = || {
            let text = given.next().ok_or(format!("{word} takes a number"))?;
            text.parse::<u64>()
                .map_err(|_| format!("{word} takes a number, not {text}"))
        };
        match word.as_str() {
            "--seed" => out.seed = number()?,
            "--count" => out.count = Some(number()?),
            "--instructions" => out.instructions = true,
            "--counted" => out.counted = true,
            flag if flag.starts_with('-') => return Err(format!("{flag}: no such flag")),
            _ => out.words.push(word),
        }
    }
    Ok(out)
}

/// The services of the given names, all where there are none.
fn chosen(words: &[String]) -> Result<Vec<&'static Service>, String> {
    if words.is_empty() {
        return Ok(SERVICES.iter().collect());
    }
    let find = |w: &String| {
        let found = SERVICES.iter().find(|s| s.name == w);
        found.ok_or(format!("{w}: no such service"))
    };
    words.iter().map(find).collect()
}

/// Compares the services and tells whether none differs.
fn compare(given: &Arguments) -> Result<bool, String> {
    let mut same = true;
    for service in chosen(&given.words)? {
        let mut tally = Tally::new(service.name);
        let mut random = Random::new(given.seed, service.name);
        let count = given.count.unwrap_or(service.count);
        (service.compare)(&mut tally, &mut random, count);
        same &= tally.report();
    }
    Ok(same)
}

/// Prints the table of times.
fn bench(given: &Arguments) -> Result<bool, String> {
    let services = chosen(&given.words)?;
    if given.instructions {
        return instructions::table(&given.words);
    }
    if given.counted {
        instructions::begin();
    }
    bench::head();
    for service in services {
        if let Some(bench) = service.bench {
            bench(&mut Random::new(given.seed, service.name));
        }
    }
    Ok(true)
}

/// Where the stored answers are.
const ANSWERS: &str = concat!(env!("CARGO_MANIFEST_DIR"), "/../tests/answers.bin");

/// Writes the stored answers of every kind.
fn vectors(given: &Arguments) -> Result<bool, String> {
    let file = match given.words.as_slice() {
        [] => ANSWERS,
        [file] => file,
        _ => return Err("vectors takes one file".to_string()),
    };
    let count = given.count.unwrap_or(0) as usize;
    if count > 0 && given.words.is_empty() {
        return Err(
            "vectors --count takes a file: the stored answers have their own counts".to_string(),
        );
    }
    AS_THEY_COME.store(count, Ordering::Relaxed);
    let bytes = stream(given.seed, count, |name, cases| {
        println!("{name}: {cases} cases")
    });
    std::fs::write(file, bytes).map_err(|e| format!("{file}: {e}"))?;
    Ok(true)
}

/// The bytes of the stored answers, or of at least so many cases of each kind; each kind is told with how many it has.
fn stream(seed: u64, count: usize, mut told: impl FnMut(&str, usize)) -> Vec<u8> {
    let mut stream = Stream::default();
    for (kind, name, make) in KINDS {
        let mut made = make(&mut Random::new(seed, name));
        for more in 1.. {
            if made.cases.len() >= count {
                break;
            }
            let next = make(&mut Random::new(seed ^ more << 32, name));
            made.cases.extend(next.cases);
        }
        stream.add(*kind, &made);
        told(name, made.cases.len());
    }
    stream.0
}

fn run() -> Result<bool, String> {
    let mut words = std::env::args().skip(1);
    let command = words.next().ok_or("no command")?;
    #[cfg(feature = "fuzz")]
    if command == "fuzz" {
        return fuzz::run(&words.collect::<Vec<_>>());
    }
    let mut given = arguments(words)?;
    match command.as_str() {
        "compare" => compare(&given),
        "bench" => bench(&given),
        "accuracy" if given.words.is_empty() => {
            given.words.push("accuracy".to_string());
            compare(&given)
        }
        "vectors" => vectors(&given),
        _ => Err(format!("{command}: no such command")),
    }
}

fn main() -> ExitCode {
    match run() {
        Ok(true) => ExitCode::SUCCESS,
        Ok(false) => ExitCode::FAILURE,
        Err(why) => {
            eprintln!("oracle: {why}\n{USAGE}");
            ExitCode::from(2)
        }
    }
}

#[cfg(test)]
mod tests {
    use super::*;

    #[test]
    fn the_stored_answers_are_those_of_the_rust() {
        let stored = std::fs::read(ANSWERS).expect("tests/answers.bin");
        assert!(stored == stream(1, 0, |_, _| {}));
    }
}
