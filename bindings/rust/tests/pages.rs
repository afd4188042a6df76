//! The manual pages name what the headers and the command have.

use std::fs;
use std::path::Path;

fn read(path: &str) -> String {
    let root = Path::new(env!("CARGO_MANIFEST_DIR")).join("../..");
    fs::read_to_string(root.join(path)).unwrap()
}

/// The calls that `zaqnuti_easy.h` defines for its users.
fn easy_calls() -> Vec<String> {
    let header = read("include/zaqnuti_easy.h");
    let defined = header
        .lines()
        .filter(|line| line.starts_with("static inline "));
    let name = |line: &str| {
        let start = line.find("zaqnuti_")?;
        let (name, _) = line[start..].split_once('(')?;
        let own = ["zaqnuti_easy_word", "zaqnuti_easy_float"];
        let easy = name.starts_with("zaqnuti_easy_") && !own.contains(&name);
        easy.then(|| name.to_string())
    };
    defined.filter_map(name).collect()
}

#[test]
fn the_library_page_has_every_easy_call() {
    let page = read("packaging/zaqnuti.3");
    let (synopsis, description) = page.split_once(".SH DESCRIPTION").unwrap();
    let calls = easy_calls();
    assert!(calls.len() > 20, "{calls:?}");
    for call in calls {
        assert!(
            synopsis.contains(&format!(" {call}(")),
            "{call} is missing in the synopsis"
        );
        let told = description.lines().filter(|line| line.starts_with(".B"));
        let mut words = told.flat_map(|line| line.split([' ', '"', ',']));
        assert!(words.any(|word| word == call), "{call} is not described");
    }
}

#[test]
fn the_programs_pages_have_every_number_and_command() {
    let page = read("packaging/displacement.1");
    for number in [1, 2, 3, 4, 5, 7, 8, 9, 10, 15] {
        assert!(page.contains(&format!("\n.IP {number} 4\n")), "{number}");
    }
    let page = read("packaging/zaqnuti.1");
    let commands = "fix displacement corrections track trip rank encode decode plot rinex";
    for command in commands.split(' ') {
        let named = page.lines().filter(|line| line.starts_with(".B "));
        let mut words = named.flat_map(|line| line.split([' ', ',', '\\']));
        assert!(
            words.any(|w| w == command || w == format!("fP{command}")),
            "{command}"
        );
    }
}
