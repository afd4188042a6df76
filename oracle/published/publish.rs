//! Copies published files to OUT_DIR under the listed substitutions, each with its count.

use std::path::{Path, PathBuf};
use std::{env, fs};

#[path = "substitutions.rs"]
mod substitutions;
use substitutions::{ABSENT, SUBSTITUTIONS};

/// One textual substitution: in `file`, `old` occurs `count` times and each becomes `new`.
pub struct Substitution {
    pub file: &'static str,
    pub old: &'static str,
    pub new: &'static str,
    pub count: usize,
}

/// Where the reference's sources stand: DRIFTERS_SRC, from the repository's root.
fn source_root(manifest: &Path) -> PathBuf {
    println!("cargo:rerun-if-env-changed=DRIFTERS_SRC");
    let repository = manifest.join("../..");
    repository.join(env::var_os("DRIFTERS_SRC").unwrap_or_else(|| "../shared/docs/src".into()))
}

/// The text of a file, which is watched from now on.
fn read(path: &Path, advice: &str) -> String {
    println!("cargo:rerun-if-changed={}", path.display());
    fs::read_to_string(path).unwrap_or_else(|e| panic!("{}: {e}. {advice}", path.display()))
}

/// `text` under the substitutions of `file`; the build fails where a count differs.
fn substituted(file: &str, mut text: String) -> String {
    for s in SUBSTITUTIONS.iter().filter(|s| s.file == file) {
        let found = text.matches(s.old).count();
        assert!(
            found == s.count,
            "{file}: {:?} occurs {found} times, and published/substitutions.rs says {}",
            s.old,
            s.count
        );
        text = text.replace(s.old, s.new);
    }
    if file.starts_with("crates/drifters-gnss/") {
        for word in ABSENT {
            assert!(!text.contains(word), "{file}: {word:?} has no stand-in");
        }
    }
    text
}

/// Writes the published files of a crate, substituted, and its stubs to OUT_DIR/published.
pub fn write(name: &str, files: &[&str], stubs: &[&str]) {
    let manifest = PathBuf::from(env::var_os("CARGO_MANIFEST_DIR").expect("set by cargo"));
    let out = PathBuf::from(env::var_os("OUT_DIR").expect("set by cargo")).join("published");
    let source = source_root(&manifest);
    for script in ["publish.rs", "substitutions.rs"] {
        let path = manifest.join("../published").join(script);
        println!("cargo:rerun-if-changed={}", path.display());
    }
    let put = |file: &str, text: String| {
        let path = out.join(file);
        fs::create_dir_all(path.parent().expect("a file in a folder"))
            .expect("a folder in OUT_DIR");
        fs::write(path, text).expect("a file in OUT_DIR");
    };
    for file in files {
        let inner = format!("crates/{name}/src/{file}");
        let advice = "Set DRIFTERS_SRC to the folder that holds the reference's crates/";
        put(
            file,
            substituted(&inner, read(&source.join(&inner), advice)),
        );
    }
    for file in stubs {
        put(file, read(&manifest.join("stubs").join(file), "A stub"));
    }
    for s in SUBSTITUTIONS {
        let known = |f: &&str| format!("crates/{name}/src/{f}") == s.file;
        let ours = s.file.starts_with(&format!("crates/{name}/"));
        assert!(
            !ours || files.iter().any(known),
            "{}: substituted and not copied",
            s.file
        );
    }
}
