//! The line form of docs/SCOPE.md, "The line form and its program": texts of inputs, a plain reader of
//! texts, and the line of an answer.

use crate::estimate::Displacement;
use crate::tally::hex;
use drifters_gnss::tdcp::{Carrier, Delta, Settings};
use std::io::Write;
use std::str::FromStr;

/// The most bytes of a text.
pub const BYTES: usize = 32_768;
/// The most bytes of an answer's line: its letter, two counts up to 64, three floats, commas and LF.
pub const LINE: usize = 59;
/// The number of a text that is too long or breaks the form.
const BROKEN: u8 = 1;

/// A float: its 64 bits as 16 upper-case hexadecimal digits.
fn float(field: &[u8]) -> Option<f64> {
    if field.len() != 16 {
        return None;
    }
    let mut bits = 0;
    for &byte in field {
        let digit = match byte {
            b'0'..=b'9' => byte - b'0',
            b'A'..=b'F' => byte - b'A' + 10,
            _ => return None,
        };
        bits = bits << 4 | u64::from(digit);
    }
    Some(f64::from_bits(bits))
}

/// Any other number: decimal without plus sign or leading zeros, no minus sign before 0, within the
/// width of its type.
fn whole<N: FromStr>(field: &[u8]) -> Option<N> {
    let digits = field.strip_prefix(b"-").unwrap_or(field);
    if field != b"0" && !matches!(digits.first(), Some(b'1'..=b'9')) {
        return None;
    }
    std::str::from_utf8(field).ok()?.parse().ok()
}

/// Line `S`, behind its letter: an input without records.
fn settings<'a>(mut next: impl FnMut() -> Option<&'a [u8]>) -> Option<Displacement> {
    Some(Displacement {
        dt: float(next()?)?,
        receiver: [float(next()?)?, float(next()?)?, float(next()?)?],
        settings: Settings {
            screen: float(next()?)?,
            sigma_a: float(next()?)?,
            sigma_b: float(next()?)?,
            huber: float(next()?)?,
            mask: float(next()?)?,
            iterations: whole::<u32>(next()?)? as usize,
            // Neither read nor checked.
            agreement: 0.0,
        },
        previous: Vec::new(),
        current: Vec::new(),
    })
}

/// Line `P` or `C`, behind its letter.
fn carrier<'a>(mut next: impl FnMut() -> Option<&'a [u8]>) -> Option<Carrier> {
    Some(Carrier {
        constellation: whole(next()?)?,
        svid: whole(next()?)?,
        band: whole(next()?)?,
        adr: float(next()?)?,
        state: whole(next()?)?,
        satellite: [float(next()?)?, float(next()?)?, float(next()?)?],
        elevation: float(next()?)?,
        rate: float(next()?)?,
    })
}

/// The input that a text says; none where it is too long or a line breaks the form.
pub fn read(text: &[u8]) -> Option<Displacement> {
    if text.len() > BYTES {
        return None;
    }
    let lines = text.strip_suffix(b"\n")?;
    let mut input: Option<Displacement> = None;
    for line in lines.split(|&byte| byte == b'\n') {
        let mut fields = line.split(|&byte| byte == b',');
        let letter = fields.next()?;
        match (letter, &mut input) {
            (b"S", None) => input = Some(settings(|| fields.next())?),
            (b"P", Some(input)) => input.previous.push(carrier(|| fields.next())?),
            (b"C", Some(input)) => input.current.push(carrier(|| fields.next())?),
            _ => return None,
        }
        if fields.next().is_some() {
            return None;
        }
    }
    input
}

/// What a text is answered by: the Rust's displacement, or the number of the refusal.
pub fn answer(text: &[u8]) -> Result<Delta, u8> {
    read(text).ok_or(BROKEN)?.answer()
}

/// Writes the line of an answer and gives its length.
pub fn print(answer: &Result<Delta, u8>, line: &mut [u8; LINE]) -> usize {
    let mut rest = &mut line[..];
    let written = match answer {
        Ok(d) => writeln!(
            rest,
            "A,{},{},{:016X},{:016X},{:016X}",
            d.used,
            d.screened,
            d.delta.x.to_bits(),
            d.delta.y.to_bits(),
            d.delta.z.to_bits()
        ),
        Err(number) => writeln!(rest, "R,{number}"),
    };
    written.expect("the longest line fits");
    LINE - rest.len()
}

/// The line of an answer.
pub fn line(answer: &Result<Delta, u8>) -> Vec<u8> {
    let mut line = [0; LINE];
    let length = print(answer, &mut line);
    line[..length].to_vec()
}

/// Line `S` of an input, without its LF.
pub fn settings_line(input: &Displacement) -> String {
    let set = &input.settings;
    let [x, y, z] = input.receiver;
    let settings = [set.screen, set.sigma_a, set.sigma_b, set.huber, set.mask];
    let floats = [input.dt, x, y, z].into_iter().chain(settings);
    format!("S,{},{}", hex(floats.map(f64::to_bits)), set.iterations)
}

/// Line `P` or `C` of a carrier, without its LF.
pub fn carrier_line(letter: char, c: &Carrier) -> String {
    let [x, y, z] = c.satellite.map(f64::to_bits);
    format!(
        "{letter},{},{},{},{:016X},{},{x:016X},{y:016X},{z:016X},{:016X},{:016X}",
        c.constellation,
        c.svid,
        c.band,
        c.adr.to_bits(),
        c.state,
        c.elevation.to_bits(),
        c.rate.to_bits()
    )
}

/// The lines of an input, previous carriers first.
pub fn lines(input: &Displacement) -> Vec<String> {
    let previous = input.previous.iter().map(|c| carrier_line('P', c));
    let current = input.current.iter().map(|c| carrier_line('C', c));
    std::iter::once(settings_line(input))
        .chain(previous)
        .chain(current)
        .collect()
}

/// A text of some lines.
pub fn text(lines: &[String]) -> Vec<u8> {
    let mut out = lines.join("\n").into_bytes();
    out.push(b'\n');
    out
}

#[cfg(test)]
mod tests {
    use super::*;
    use std::fs;
    use std::path::Path;

    #[test]
    fn whole_numbers_are_those_that_print_as_their_field() {
        fn same<N: FromStr + ToString + PartialEq>(field: &str) -> bool {
            let printed = field.parse().ok().filter(|n: &N| n.to_string() == field);
            whole::<N>(field.as_bytes()) == printed
        }
        for n in -70_000..70_000i64 {
            for field in [
                format!("{n}"),
                format!("0{n}"),
                format!("+{n}"),
                format!("-{n}"),
            ] {
                assert!(same::<u8>(&field) && same::<u16>(&field) && same::<i32>(&field));
            }
        }
        for n in [1i64 << 31, 1 << 32] {
            for by in -2..=2 {
                let fields = [format!("{}", n + by), format!("-{}", n + by)];
                assert!(fields.iter().all(|f| same::<u32>(f) && same::<i32>(f)));
            }
        }
    }

    #[test]
    fn the_drive_is_answered_as_it_was_driven() {
        let folder = Path::new(env!("CARGO_MANIFEST_DIR")).join("../examples/drive");
        let truth = fs::read_to_string(folder.join("truth")).expect("examples/drive/truth");
        let counts = truth.lines().map(|line| {
            let mut words = line.split(' ');
            let name = words.next().expect("a name");
            let text = fs::read(folder.join(format!("{name}.txt"))).expect("a text");
            let answer = answer(&text)?;
            let moved = [answer.delta.x, answer.delta.y, answer.delta.z];
            for (metres, word) in moved.iter().zip(words) {
                let off = metres - word.parse::<f64>().expect("metres");
                assert!(off.abs() < 0.05, "{name}: {off} m off");
            }
            Ok((answer.used, answer.screened))
        });
        let expected = [
            Ok((13, 0)),
            Ok((12, 1)),
            Ok((13, 0)),
            Ok((12, 0)),
            Ok((12, 0)),
            Ok((12, 0)),
            Err(7),
            Err(8),
            Ok((12, 0)),
            Ok((12, 0)),
        ];
        assert_eq!(counts.collect::<Vec<_>>(), expected);
    }
}
