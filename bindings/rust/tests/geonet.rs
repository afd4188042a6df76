//! The example `geonet`: its figures and its picture are the stored ones.

use std::path::Path;
use std::process::Command;
use std::{env, fs};

#[test]
fn figures_are_the_stored_ones() {
    let folder = Path::new(env!("CARGO_MANIFEST_DIR")).join("../../examples/geonet");
    let picture = Path::new(env!("CARGO_TARGET_TMPDIR")).join("geonet.svg");
    // cargo builds the examples before it runs the tests, beside the folder of the tests.
    let tests = env::current_exe().unwrap();
    let example = tests.parent().unwrap().join("../examples/geonet");
    let out = Command::new(example)
        .arg(&folder)
        .arg(&picture)
        .output()
        .unwrap();
    assert!(out.status.success(), "{out:?}");
    let stored = fs::read_to_string(folder.join("figures.txt")).unwrap();
    assert_eq!(String::from_utf8(out.stdout).unwrap(), stored);
    let [made, stored] =
        [picture, folder.join("geonet.svg")].map(|p| fs::read_to_string(p).unwrap());
    assert!(
        made == stored,
        "examples/geonet/geonet.svg is not what the example draws"
    );
}
