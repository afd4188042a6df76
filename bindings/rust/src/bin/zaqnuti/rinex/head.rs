//! The first line of a RINEX file, and checks that both kinds of header share.

use crate::fault::Run;

use super::lines::Lines;

/// The first line: version, kind of file and system.
#[derive(Clone, Copy, Debug, PartialEq)]
pub struct Version {
    /// The version times 100.
    pub number: u32,
    /// O for observations, N, G and others for navigation.
    pub kind: u8,
    /// The letter of the system, M for several.
    pub system: u8,
}

impl Version {
    /// Reads the first line.
    pub fn read(lines: &mut Lines) -> Run<Self> {
        if !lines.next()? {
            return Err(lines.fault("the file is empty"));
        }
        if lines.label() == b"CRINEX VERS   / TYPE" {
            return Err(lines.fault("Hatanaka-compressed; decompress it with crx2rnx first"));
        }
        if lines.label() != b"RINEX VERSION / TYPE" {
            return Err(lines.fault("not a RINEX file: the first line has no version"));
        }
        let number = (lines.float(0, 9, "a version")? * 100.0).round();
        if !(200.0..=305.0).contains(&number) || (212.0 < number && number < 300.0) {
            return Err(lines.fault("unsupported version; 2.00 to 3.05 are read"));
        }
        let (kind, system) = (lines.column(20), lines.column(40));
        let system = if system == b' ' { b'G' } else { system };
        Ok(Self {
            number: number as u32,
            kind,
            system,
        })
    }

    /// 2 or 3.
    pub fn major(&self) -> u32 {
        self.number / 100
    }
}

/// Returns the full year of a two-digit one: 1980 to 2079.
pub fn century(year: i64) -> i64 {
    match year {
        0..=79 => 2000 + year,
        80..=99 => 1900 + year,
        _ => year,
    }
}

/// Checks that a line may occur in a header.
pub fn foreign(lines: &Lines, label: &[u8]) -> Run<()> {
    match label {
        b"RINEX VERSION / TYPE" => Err(lines.fault("a second header begins within the first")),
        b"" if !lines.field(0, 60).is_empty() => {
            Err(lines.fault("the header has a line without a label"))
        }
        _ => Ok(()),
    }
}
