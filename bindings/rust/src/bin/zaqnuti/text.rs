//! `zaqnuti encode` and `decode`: CSV to the line form of the program `displacement`, and back.

use std::collections::BTreeMap;
use std::io::Read;
use std::path::Path;

use zaqnuti::TEXT;

use crate::args::Args;
use crate::csv::open;
use crate::decimal::{hexadecimal, read, written};
use crate::fault::{failed, said, Fault, Run};
use crate::files;
use crate::output::Output;
use crate::pairs::{Pair, Pairs, Side};
use crate::series::VALUED;

pub const ENCODE: &str = "\
zaqnuti encode [OPTIONS] [FILE]: pairs of epochs as texts of the program displacement

One pair goes to standard output or to -o; several go to --to FOLDER, each to
the file of its name with .txt behind it. The columns and the options of a series
are those of `zaqnuti displacement`.

  --to FOLDER         where the texts go
";

pub const DECODE: &str = "\
zaqnuti decode [OPTIONS] [FILE..]: texts of the program displacement as CSV

Each text becomes a pair of the file's name without its ending. Floats are
written so that `zaqnuti encode` gives the same text again.

  --truth FILE        lines NAME DX DY DZ: the true displacements, m
";

/// The columns of a decoded text.
const HEADER: &str = "pair,line,dt,x,y,z,screen,sigma_a,sigma_b,huber,mask,rounds,constellation,svid,band,adr,state,elevation,rate";

fn hex(floats: &[f64]) -> String {
    let fields = floats.iter().map(|x| format!("{:016X}", x.to_bits()));
    fields.collect::<Vec<_>>().join(",")
}

/// Returns the text of a pair in the line form.
fn encoded(pair: &Pair) -> Run<String> {
    let ([x, y, z], s) = (pair.at, &pair.set);
    let head = [
        pair.dt, x, y, z, s.screen, s.sigma_a, s.sigma_b, s.huber, s.mask,
    ];
    let mut out = format!("S,{},{}\n", hex(&head), s.iterations);
    for (side, c) in &pair.carriers {
        let letter = if *side == Side::Previous { 'P' } else { 'C' };
        let ([x, y, z], adr) = (c.satellite, hex(&[c.adr]));
        let floats = hex(&[x, y, z, c.elevation, c.rate]);
        let (constellation, svid, band) = (c.constellation, c.svid, c.band);
        out += &format!(
            "{letter},{constellation},{svid},{band},{adr},{},{floats}\n",
            c.state
        );
    }
    match pair.over || out.len() > TEXT {
        true => said(format!("{}: has too many carriers for a text", pair.name)),
        false => Ok(out),
    }
}

fn put(path: Option<&str>, text: &str) -> Run<()> {
    let mut out = Output::open(path)?;
    out.line(text.trim_end())?;
    out.close()
}

/// Returns the path of a pair's text, whose name must be one of a file alone.
fn path(folder: &str, pair: &Pair) -> Run<String> {
    let name = pair.name.replace([' ', ','], "_");
    let plain = |c: char| c.is_ascii_alphanumeric() || "._-".contains(c);
    match name.starts_with('.') || !name.chars().all(plain) {
        true => said(format!("{:?} is not a file name", pair.name)),
        false => Ok(format!("{folder}/{name}.txt")),
    }
}

/// Writes the texts of a file's pairs.
pub fn encode(words: &[String]) -> Run<bool> {
    let valued = [&VALUED[..], &["-o", "--to"]].concat();
    let args = Args::parse(words, &valued, &["--ignore-unknown"])?;
    let mut pairs = Pairs::open(args.source()?, &args)?;
    if let Some(folder) = args.value("--to") {
        while let Some(pair) = pairs.next()? {
            put(Some(&path(folder, &pair)?), &encoded(&pair)?)?;
        }
        return Ok(true);
    }
    let Some(pair) = pairs.next()? else {
        return said(format!("{}: has no pair of epochs", pairs.name()));
    };
    if pairs.next()?.is_some() {
        return said(format!(
            "{}: has more than one pair; give --to FOLDER",
            pairs.name()
        ));
    }
    put(args.value("-o"), &encoded(&pair)?)?;
    Ok(true)
}

/// A line of a text that is being read.
struct Place<'a> {
    name: &'a str,
    line: usize,
}

impl Place<'_> {
    fn fault(&self, why: &str) -> Fault {
        Fault::Said(format!("{}:{}: {why}", self.name, self.line))
    }

    fn float(&self, field: &str, name: &str) -> Run<String> {
        match hexadecimal(field) {
            Some(bits) => Ok(written(f64::from_bits(bits))),
            None => Err(self.fault(&format!("{name}: {field:?} is not 16 digits 0-9, A-F"))),
        }
    }

    /// Returns a whole number as the line form has it, without plus sign or leading zeros.
    fn whole(&self, field: &str, name: &str, range: (i64, i64)) -> Run<String> {
        let number = field.parse::<i64>().ok().filter(|n| n.to_string() == field);
        match number {
            Some(n) if range.0 <= n && n <= range.1 => Ok(field.to_string()),
            _ => {
                let (low, high) = range;
                Err(self.fault(&format!("{name}: {field:?} is not {low} to {high}")))
            }
        }
    }

    /// Returns the fields of a line S after its letter, as CSV.
    fn head(&self, fields: &[&str]) -> Run<String> {
        let names = [
            "dt", "x", "y", "z", "screen", "sigma_a", "sigma_b", "huber", "mask", "rounds",
        ];
        self.count(fields, names.len())?;
        let mut out = Vec::new();
        for (field, name) in fields.iter().zip(&names[..9]) {
            out.push(self.float(field, name)?);
        }
        out.push(self.whole(fields[9], "rounds", (0, u32::MAX.into()))?);
        Ok(out.join(",") + ",,,,,,,")
    }

    /// Returns the fields of a line P or C after its letter, as CSV.
    fn carrier(&self, fields: &[&str]) -> Run<String> {
        self.count(fields, 10)?;
        let constellation = self.whole(fields[0], "constellation", (0, u8::MAX.into()))?;
        let svid = self.whole(fields[1], "svid", (0, u16::MAX.into()))?;
        let band = self.whole(fields[2], "band", (0, u32::MAX.into()))?;
        let adr = self.float(fields[3], "adr")?;
        let state = self.whole(fields[4], "state", (i32::MIN.into(), i32::MAX.into()))?;
        let [x, y, z] = [(5, "x"), (6, "y"), (7, "z")].map(|(i, n)| self.float(fields[i], n));
        let place = [x?, y?, z?].join(",");
        let elevation = self.float(fields[8], "elevation")?;
        let rate = self.float(fields[9], "rate")?;
        let signal = format!("{constellation},{svid},{band},{adr},{state}");
        Ok(format!(",{place},,,,,,,{signal},{elevation},{rate}"))
    }

    fn count(&self, fields: &[&str], want: usize) -> Run<()> {
        match fields.len() == want {
            true => Ok(()),
            false => Err(self.fault(&format!(
                "{} fields, {} are wanted",
                fields.len() + 1,
                want + 1
            ))),
        }
    }
}

/// Writes a text's lines as CSV, and the truth behind its line S where it is known.
fn decoded(source: &str, known: Option<&Truth>, out: &mut Output) -> Run<()> {
    let (name, reader, _) = open(source)?;
    let mut text = Vec::new();
    let mut reader = reader.take(TEXT as u64 + 1);
    reader
        .read_to_end(&mut text)
        .map_err(|e| failed(&name, &e))?;
    if text.len() > TEXT {
        return said(format!("{name}: a text has at most {TEXT} bytes"));
    }
    let text = String::from_utf8(text).or_else(|_| said(format!("{name}: is not text")))?;
    let Some(text) = text.strip_suffix('\n') else {
        return said(format!("{name}: is empty, or its last line has no end"));
    };
    let stem = Path::new(source).file_stem().and_then(|s| s.to_str());
    let pair = stem.filter(|s| *s != "-").unwrap_or("stdin");
    let truth = known.map_or(String::new(), |t| {
        t.get(pair).cloned().unwrap_or(",,,".into())
    });
    let blank = known.map_or("", |_| ",,,");
    for (i, line) in text.split('\n').enumerate() {
        let (name, fields): (_, Vec<&str>) = (name.as_str(), line.split(',').collect());
        let place = Place { name, line: i + 1 };
        let (row, truth) = match (fields[0], i) {
            ("S", 0) => (place.head(&fields[1..])?, truth.as_str()),
            ("P" | "C", 1..) => (place.carrier(&fields[1..])?, blank),
            _ => return Err(place.fault("S comes first and once, then P and C")),
        };
        out.line(format!("{pair},{},{row}{truth}", fields[0]))?;
    }
    Ok(())
}

/// True displacements by name, each as `,dx,dy,dz`.
type Truth = BTreeMap<String, String>;

fn truth(path: &str) -> Run<Truth> {
    let text = std::fs::read_to_string(path).map_err(|e| failed(path, &e))?;
    let about = std::fs::metadata(path).map_err(|e| failed(path, &e))?;
    files::read(path, &about)?;
    let mut out = Truth::new();
    for (i, line) in text.lines().enumerate() {
        let words: Vec<&str> = line.split_whitespace().collect();
        let floats: Option<Vec<f64>> = words.iter().skip(1).map(|w| read(w)).collect();
        match (words.first(), floats) {
            (Some(name), Some(floats)) if floats.len() == 3 => {
                let fields = floats.into_iter().map(|x| format!(",{}", written(x)));
                out.insert(name.to_string(), fields.collect());
            }
            _ => return said(format!("{path}:{}: is not NAME DX DY DZ", i + 1)),
        }
    }
    Ok(out)
}

/// Writes texts as CSV.
pub fn decode(words: &[String]) -> Run<bool> {
    let args = Args::parse(words, &["-o", "--truth"], &[])?;
    let known = args.value("--truth").map(truth).transpose()?;
    let mut out = Output::open(args.value("-o"))?;
    let more = known.as_ref().map_or("", |_| ",true_dx,true_dy,true_dz");
    out.line(format!("{HEADER}{more}"))?;
    for source in args.sources() {
        decoded(source, known.as_ref(), &mut out)?;
    }
    out.close()?;
    Ok(true)
}
