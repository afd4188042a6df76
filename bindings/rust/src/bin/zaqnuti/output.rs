//! Answers to standard output line by line, or to a file that appears only once it is whole.

use std::fmt;
use std::fs::{self, File};
use std::io::{self, BufWriter, Write};
use std::path::{Path, PathBuf};

use crate::fault::{failed, Run};
use crate::files;

/// Where answers go.
pub struct Output {
    name: String,
    sink: Sink,
}

enum Sink {
    /// Standard output, each line as it comes.
    Stream(io::Stdout),
    /// A device or a pipe, which has no place beside it.
    Direct(BufWriter<File>),
    /// A file that is written beside its place.
    Beside(BufWriter<File>, Part),
}

/// A file that is not whole yet, removed if it never is.
struct Part {
    at: PathBuf,
    place: PathBuf,
    whole: bool,
}

impl Drop for Part {
    fn drop(&mut self) {
        if !self.whole {
            // What can't be removed is told by the fault that led here.
            let _ = fs::remove_file(&self.at);
        }
    }
}

impl Output {
    /// Standard output, or the file of a path.
    pub fn open(path: Option<&str>) -> Run<Self> {
        let (name, sink) = match path {
            None | Some("-") => ("standard output".into(), Sink::Stream(io::stdout())),
            Some(path) => {
                files::written(path)?;
                let sink = Self::file(Path::new(path));
                (path.to_string(), sink.map_err(|e| failed(path, &e))?)
            }
        };
        Ok(Self { name, sink })
    }

    fn file(path: &Path) -> io::Result<Sink> {
        // A link stays a link, and what it leads to is replaced.
        let place = fs::canonicalize(path).unwrap_or_else(|_| path.to_path_buf());
        if fs::metadata(&place).is_ok_and(|about| !about.is_file()) {
            let file = File::options().write(true).open(&place)?;
            return Ok(Sink::Direct(BufWriter::new(file)));
        }
        let mut at = place.clone().into_os_string();
        at.push(format!(".part-{}", std::process::id()));
        let (at, whole) = (PathBuf::from(at), false);
        let file = File::create_new(&at)?;
        Ok(Sink::Beside(
            BufWriter::new(file),
            Part { at, place, whole },
        ))
    }

    /// Writes one line.
    pub fn line(&mut self, text: impl fmt::Display) -> Run<()> {
        let text = format!("{text}\n");
        let done = match &mut self.sink {
            Sink::Stream(out) => out.write_all(text.as_bytes()),
            Sink::Direct(out) | Sink::Beside(out, _) => out.write_all(text.as_bytes()),
        };
        done.map_err(|e| failed(&self.name, &e))
    }

    /// Ends the output; a file is there, whole, from now on.
    pub fn close(self) -> Run<()> {
        let done = match self.sink {
            Sink::Stream(mut out) => out.flush(),
            Sink::Direct(mut out) => out.flush(),
            Sink::Beside(out, part) => put(out, part),
        };
        done.map_err(|e| failed(&self.name, &e))
    }
}

/// Puts a file that is whole in its place.
fn put(out: BufWriter<File>, mut part: Part) -> io::Result<()> {
    out.into_inner()?.sync_all()?;
    fs::rename(&part.at, &part.place)?;
    part.whole = true;
    Ok(())
}
