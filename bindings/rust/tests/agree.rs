//! The header, the Rattle sources and the module `sys` declare the same functions, with the same parameters in the same order.

use std::collections::BTreeMap;
use std::fs;
use std::path::{Path, PathBuf};

use zaqnuti::Refusal;

/// For each function the parameters' types and the result's, in one notation: `*T` and `*const T` for pointers, `T` for numbers.
type Signatures = BTreeMap<String, (Vec<String>, String)>;

fn root() -> PathBuf {
    Path::new(env!("CARGO_MANIFEST_DIR")).join("../..")
}

/// Splits at commas that stand outside brackets.
fn items(list: &str) -> Vec<String> {
    let (mut out, mut depth) = (vec![String::new()], 0);
    for c in list.chars() {
        match c {
            '[' => depth += 1,
            ']' => depth -= 1,
            _ => {}
        }
        if c == ',' && depth == 0 {
            out.push(String::new());
        } else {
            out.last_mut().unwrap().push(c);
        }
    }
    let trimmed = out.iter().map(|s| s.trim().to_string());
    trimmed.filter(|s| !s.is_empty()).collect()
}

/// The element type and how many there are, of `T`, `[T; n]` or `[[T; n]; m]`.
fn elements(kind: &str) -> (String, usize) {
    match kind.strip_prefix('[').and_then(|k| k.strip_suffix(']')) {
        None => (kind.to_string(), 1),
        Some(inner) => {
            let (element, n) = inner.rsplit_once(';').expect("an array has a length");
            let (element, m) = elements(element.trim());
            (element, m * n.trim().parse::<usize>().unwrap())
        }
    }
}

/// A pointer to so many elements.
fn pointer(writable: bool, kind: &str) -> String {
    let (element, n) = elements(kind);
    let start = if writable { "*" } else { "*const " };
    format!("{start}{element} x{n}")
}

/// The functions after a mark, as Rust and Rattle write them.
fn rusty(text: &str, mark: &str, parameter: impl Fn(&str) -> Vec<String>) -> Signatures {
    let mut out = Signatures::new();
    for part in text.split(mark).skip(1) {
        let (name, rest) = part.split_once('(').unwrap();
        if !name.starts_with("zaqnuti_") {
            continue;
        }
        let (list, rest) = rest.split_once(')').unwrap();
        let result = match rest.trim_start().strip_prefix("->") {
            Some(r) => r.split_whitespace().next().unwrap().trim_end_matches(';'),
            None => "()",
        };
        let types = items(list).iter().flat_map(|i| parameter(i)).collect();
        out.insert(name.to_string(), (types, result.to_string()));
    }
    out
}

/// What a caller lends as doubles and the sources take as their patterns, so that what a refusal leaves is promised to the last bit.
const PATTERNS: &[&str] = &[
    "delta",
    "quality",
    "solution",
    "position",
    "metres",
    "seconds",
    "out",
    "ned",
    "in_force",
    "table_time",
    "table_metres",
    "res",
    "work",
    "l",
    "x",
    "dx",
];

fn rattle() -> Signatures {
    let mut out = Signatures::new();
    for file in fs::read_dir(root().join("crates/zaqnuti/src")).unwrap() {
        let text = fs::read_to_string(file.unwrap().path()).unwrap();
        let parameter = |item: &str| {
            let (name, kind) = item.split_once(':').unwrap();
            let kind = kind.trim();
            let Some(behind) = kind.strip_prefix('&') else {
                return vec![kind.to_string()];
            };
            let (writable, kind) = match behind.strip_prefix("mut ") {
                Some(kind) if PATTERNS.contains(&name.trim()) => (true, kind.replace("u64", "f64")),
                Some(kind) => (true, kind.to_string()),
                None => (false, behind.to_string()),
            };
            if kind.starts_with('[') && !kind.contains(';') {
                let element = kind.trim_matches(['[', ']']);
                return vec![pointer(writable, element), "usize".to_string()];
            }
            vec![pointer(writable, &kind)]
        };
        out.extend(rusty(&text, "pub extern \"C\" fn ", parameter));
    }
    out
}

fn sys() -> Signatures {
    let text = fs::read_to_string(root().join("bindings/rust/src/sys.rs")).unwrap();
    let parameter = |item: &str| {
        let (_, kind) = item.split_once(':').unwrap();
        let kind = kind.trim();
        vec![
            match (kind.strip_prefix("*mut "), kind.strip_prefix("*const ")) {
                (Some(behind), _) => pointer(true, behind),
                (_, Some(behind)) => pointer(false, behind),
                _ => kind.to_string(),
            },
        ]
    };
    rusty(&text, "pub fn ", parameter)
}

/// C's name of a number under Rust's.
fn number(c: &str) -> &str {
    match c {
        "uint8_t" => "u8",
        "uint16_t" => "u16",
        "uint32_t" => "u32",
        "uint64_t" => "u64",
        "int32_t" => "i32",
        "int64_t" => "i64",
        "zaqnuti_size" => "usize",
        "double" => "f64",
        "bool" => "bool",
        "void" => "()",
        other => panic!("no such type in the header's vocabulary: {other}"),
    }
}

fn header() -> Signatures {
    let text = fs::read_to_string(root().join("include/zaqnuti.h")).unwrap();
    let mut code = String::new();
    let mut rest = text.as_str();
    while let Some((before, comment)) = rest.split_once("/*") {
        code += before;
        rest = comment.split_once("*/").unwrap().1;
    }
    code += rest;
    let mut out = Signatures::new();
    for part in code.split(';') {
        let Some((head, list)) = part.split_once('(') else {
            continue;
        };
        let words: Vec<&str> = head.split_whitespace().collect();
        let [.., result, name] = words[..] else {
            continue;
        };
        let list = list.rsplit_once(')').unwrap().0;
        let list = if list.trim() == "void" { "" } else { list };
        let types = items(list).iter().map(|i| parameter_of_c(i)).collect();
        out.insert(name.to_string(), (types, number(result).to_string()));
    }
    out
}

fn parameter_of_c(item: &str) -> String {
    let (fixed, item) = match item.strip_prefix("const ") {
        Some(item) => (true, item),
        None => (false, item),
    };
    let (kind, name) = item.split_once(' ').unwrap();
    let element = number(kind);
    if let Some((_, n)) = name.split_once('[') {
        let n = n.trim_end_matches(']');
        return pointer(!fixed, &format!("[{element}; {n}]"));
    }
    if name.starts_with('*') {
        return pointer(!fixed, element);
    }
    element.to_string()
}

#[test]
fn header_and_rattle_agree() {
    let rattle = rattle();
    assert!(rattle.len() >= 33, "the sources were read");
    assert_eq!(header(), rattle);
}

#[test]
fn sys_and_rattle_agree() {
    assert_eq!(sys(), rattle());
}

/// The names and numbers of crates/numeric/src/refusal.rt.
#[test]
fn refusals_and_rattle_agree() {
    let text = fs::read_to_string(root().join("crates/numeric/src/refusal.rt")).unwrap();
    let named = |line: &str| {
        let (name, number) = line.strip_prefix("    ")?.split_once(" = ")?;
        Some((
            name.to_string(),
            number.trim_end_matches(',').parse::<u8>().ok()?,
        ))
    };
    let rattle: Vec<(String, u8)> = text.lines().filter_map(named).collect();
    let here = Refusal::ALL.iter().map(|r| (format!("{r:?}"), r.number()));
    assert_eq!(rattle, here.collect::<Vec<_>>());
}
