//! Runs of the command `zaqnuti`.
#![allow(dead_code)]

use std::fs;
use std::io::Write;
use std::path::{Path, PathBuf};
use std::process::{Command, Output, Stdio};
use std::thread;

pub const COMMAND: &str = env!("CARGO_BIN_EXE_zaqnuti");

pub fn examples() -> PathBuf {
    Path::new(env!("CARGO_MANIFEST_DIR")).join("../../examples")
}

/// An empty folder of a test's own.
pub fn folder(name: &str) -> PathBuf {
    let at = Path::new(env!("CARGO_TARGET_TMPDIR")).join(name);
    let _ = fs::remove_dir_all(&at);
    fs::create_dir_all(&at).unwrap();
    at
}

/// Runs the command on bytes at standard input.
pub fn fed(words: &[&str], input: &[u8]) -> Output {
    let mut child = Command::new(COMMAND)
        .args(words)
        .stdin(Stdio::piped())
        .stdout(Stdio::piped())
        .stderr(Stdio::piped())
        .spawn()
        .unwrap();
    let (mut stdin, input) = (child.stdin.take().unwrap(), input.to_vec());
    // A command that ends early closes its end.
    let feeder = thread::spawn(move || drop(stdin.write_all(&input)));
    let out = child.wait_with_output().unwrap();
    feeder.join().unwrap();
    out
}

pub fn run(words: &[&str]) -> Output {
    fed(words, b"")
}

pub fn text(bytes: &[u8]) -> String {
    String::from_utf8(bytes.to_vec()).unwrap()
}

/// What the command writes where it ends with a status: with 0 it says nothing, with 1 how many
/// calls were refused.
pub fn answered(words: &[&str], status: i32) -> String {
    let out = run(words);
    let said = text(&out.stderr);
    assert_eq!(out.status.code(), Some(status), "{words:?}: {said}");
    match status {
        1 => assert!(is_sum(&said), "{words:?}: {said}"),
        _ => assert_eq!(said, "", "{words:?}"),
    }
    text(&out.stdout)
}

/// Whether a text is one line that sums up refusals.
fn is_sum(said: &str) -> bool {
    said.starts_with("zaqnuti: ") && said.contains(" refused: ") && said.lines().count() == 1
}

/// What the command says where the input or the words are bad.
pub fn said(words: &[&str], input: &[u8]) -> String {
    let out = fed(words, input);
    let said = text(&out.stderr);
    assert_eq!(out.status.code(), Some(2), "{words:?}: {said}");
    assert!(
        said.starts_with("zaqnuti: ") && said.lines().count() == 1,
        "{said}"
    );
    said.trim_end()["zaqnuti: ".len()..].to_string()
}
