//! The files of a run, so that no output replaces an input.

use std::fs::{self, Metadata};
use std::os::unix::fs::MetadataExt;
use std::path::Path;
use std::sync::Mutex;

use crate::fault::{said, Run};

/// A file by its device and its number there, whatever path leads to it.
type Identity = (u64, u64);

struct Files {
    read: Vec<Identity>,
    written: Vec<Identity>,
}

static FILES: Mutex<Files> = Mutex::new(Files {
    read: Vec::new(),
    written: Vec::new(),
});

fn identity(about: &Metadata) -> Option<Identity> {
    about.is_file().then(|| (about.dev(), about.ino()))
}

/// Takes note of a file that is read; a fault where it is an output.
pub fn read(path: &str, about: &Metadata) -> Run<()> {
    let Some(file) = identity(about) else {
        return Ok(());
    };
    let mut files = FILES.lock().expect("no holder panics");
    if files.written.contains(&file) {
        return said(format!("{path}: is an input, and would be replaced"));
    }
    if files.read.last() != Some(&file) {
        files.read.push(file);
    }
    Ok(())
}

/// Takes note of a file that will be replaced; a fault where it is an input or another output.
pub fn written(path: &str) -> Run<()> {
    let about = fs::metadata(Path::new(path));
    let Some(file) = about.ok().as_ref().and_then(identity) else {
        return Ok(());
    };
    let mut files = FILES.lock().expect("no holder panics");
    if files.read.contains(&file) {
        return said(format!("{path}: is an input, and would be replaced"));
    }
    if files.written.contains(&file) {
        return said(format!("{path}: is written twice"));
    }
    files.written.push(file);
    Ok(())
}
