//! Satellite systems, their signals, and RINEX observation codes.

use crate::fault::{said, Run};
use crate::orbit::LIGHT;

/// A satellite system.
#[derive(Clone, Copy, Debug, PartialEq)]
pub enum System {
    Gps,
    Glonass,
    Galileo,
    Beidou,
}

/// All supported systems.
pub const SYSTEMS: [System; 4] = [
    System::Gps,
    System::Glonass,
    System::Galileo,
    System::Beidou,
];

impl System {
    /// The system of a letter.
    pub fn of(letter: u8) -> Option<Self> {
        Some(match letter {
            b'G' => Self::Gps,
            b'R' => Self::Glonass,
            b'E' => Self::Galileo,
            b'C' => Self::Beidou,
            _ => return None,
        })
    }

    /// The number that Android gives it.
    pub fn constellation(self) -> u8 {
        match self {
            Self::Gps => 1,
            Self::Glonass => 3,
            Self::Beidou => 5,
            Self::Galileo => 6,
        }
    }
}

/// A satellite: its system and its number there.
#[derive(Clone, Copy, Debug, PartialEq)]
pub struct Satellite {
    pub system: System,
    pub number: u8,
}

impl Satellite {
    /// The length of a table indexed by satellite.
    pub const PLACES: usize = 400;

    /// Returns the satellite's index in a table.
    pub fn place(self) -> usize {
        self.system as usize * 100 + usize::from(self.number)
    }
}

/// Checks for satellites of systems that are skipped: SBAS, QZSS, NavIC.
pub fn other(letter: u8, number: u8) -> bool {
    matches!((letter, number), (b'S', 20..) | (b'J' | b'I', 1..=14))
}

/// Checks for the letters of systems that are skipped.
pub fn skipped(letter: u8) -> bool {
    matches!(letter, b'S' | b'J' | b'I')
}

/// A frequency band of a system.
#[derive(Clone, Copy, Debug, PartialEq)]
pub struct Band {
    pub system: System,
    /// The band's digit in RINEX.
    pub digit: u8,
    /// The frequency in Hz; for GLONASS that of channel 0.
    frequency: f64,
    /// The spacing of GLONASS channels, Hz.
    spacing: f64,
    /// Its tracking codes, preferred ones first.
    pub codes: &'static [u8],
}

/// All bands: letter and digit, frequency in kHz, codes.
const BANDS: [(u8, u8, u32, &[u8]); 11] = [
    (b'G', b'1', 1_575_420, b"CSLXPWYMN"),
    (b'G', b'2', 1_227_600, b"LXSCWPYDMN"),
    (b'G', b'5', 1_176_450, b"QXI"),
    (b'R', b'1', 1_602_000, b"CP"),
    (b'R', b'2', 1_246_000, b"CP"),
    (b'E', b'1', 1_575_420, b"CXBAZ"),
    (b'E', b'5', 1_176_450, b"QXI"),
    (b'E', b'7', 1_207_140, b"QXI"),
    (b'C', b'2', 1_561_098, b"IXQ"),
    (b'C', b'7', 1_207_140, b"IXQ"),
    (b'C', b'6', 1_268_520, b"IXQ"),
];

impl Band {
    /// Returns the band of a name such as G1.
    pub fn of(name: &str) -> Option<Self> {
        let &[letter, digit] = name.as_bytes() else {
            return None;
        };
        let found = BANDS.iter().find(|b| (b.0, b.1) == (letter, digit))?;
        let spacing = match (letter, digit) {
            (b'R', b'1') => 562_500.0,
            (b'R', _) => 437_500.0,
            _ => 0.0,
        };
        Some(Self {
            system: System::of(letter)?,
            digit,
            frequency: f64::from(found.2) * 1e3,
            spacing,
            codes: found.3,
        })
    }

    /// Returns the column `band`: the frequency in MHz, rounded; for GLONASS that of channel 0.
    pub fn megahertz(&self) -> u32 {
        (self.frequency / 1e6).round() as u32
    }

    /// Returns the frequency of a channel in Hz.
    pub fn frequency(&self, channel: i8) -> f64 {
        self.frequency + self.spacing * f64::from(channel)
    }

    /// The wavelength in m.
    pub fn wavelength(&self, channel: i8) -> f64 {
        LIGHT / self.frequency(channel)
    }

    /// Returns the ionospheric delay relative to GPS L1.
    pub fn slowing(&self, channel: i8) -> f64 {
        (1_575_420e3 / self.frequency(channel)).powi(2)
    }
}

/// Parses `--band` and `--systems`. By default, selects the strongest civil signal of each system.
pub fn chosen(bands: Option<&str>, systems: Option<&str>) -> Run<Vec<Band>> {
    let names = bands.unwrap_or("G1,R1,E1,C2");
    let mut out: Vec<Band> = Vec::new();
    for name in names.split(',') {
        let Some(band) = Band::of(name.trim()) else {
            let all: Vec<String> = BANDS.iter().map(|b| shown(b.0, b.1)).collect();
            return said(format!("--band: {name:?} is none of {}", all.join(", ")));
        };
        if out.contains(&band) {
            return said(format!("--band: {name} is given twice"));
        }
        out.push(band);
    }
    let letters = systems.unwrap_or("GREC").as_bytes();
    let mut wanted = Vec::new();
    for letter in letters {
        match System::of(*letter) {
            Some(system) => wanted.push(system),
            None => {
                let letter = char::from(*letter);
                return said(format!("--systems: {letter:?} is none of G, R, E, C"));
            }
        }
    }
    out.retain(|b| wanted.contains(&b.system));
    match out.is_empty() {
        true => said("--systems, --band: no signal is left"),
        false => Ok(out),
    }
}

fn shown(letter: u8, digit: u8) -> String {
    [char::from(letter), char::from(digit)].iter().collect()
}

/// An observation type: its kind (C, L, D, S), band and tracking code.
#[derive(Clone, Copy, Debug, PartialEq)]
pub struct Kind {
    pub kind: u8,
    pub band: u8,
    /// The tracking code, or `*` where RINEX 2 leaves it open.
    pub code: u8,
}

impl Kind {
    /// Parses a type of RINEX 3. Version 3.02 alone calls BeiDou B1I band 1.
    pub fn of_3(name: &[u8], system: System, version: u32) -> Option<Self> {
        let &[kind, band, code] = name else {
            return None;
        };
        let old = system == System::Beidou && version == 302 && b"IQX".contains(&code);
        let band = if old && band == b'1' { b'2' } else { band };
        Some(Self { kind, band, code })
    }

    /// Parses a type of RINEX 2. Version 2.12 has letters for civil codes.
    pub fn of_2(name: &[u8]) -> Option<Self> {
        let &[kind, band] = name else {
            return None;
        };
        let civil = match band {
            b'A' => Some(b'1'),
            b'C' | b'D' => Some(b'2'),
            _ => None,
        };
        if let Some(band) = civil {
            let code = b'C';
            return Some(Self { kind, band, code });
        }
        let (kind, code) = match kind {
            b'P' => (b'C', b'P'),
            // C1 and so on are the civil codes.
            b'C' => (b'C', b'*'),
            _ => (kind, b'*'),
        };
        Some(Self { kind, band, code })
    }
}

/// The indices of one signal's observations in a satellite's row.
#[derive(Clone, Copy, Debug, PartialEq)]
pub struct Pick {
    /// The index of the band in the list of those selected.
    pub band: usize,
    pub code: u8,
    pub pseudorange: usize,
    pub carrier: Option<usize>,
    pub doppler: Option<usize>,
}

/// Lists a system's selected signals band by band, preferred codes first.
pub fn picks(kinds: &[Kind], system: System, bands: &[Band]) -> Vec<Pick> {
    let mut out = Vec::new();
    let asked = |b: &(usize, &Band)| b.1.system == system;
    for (place, band) in bands.iter().enumerate().filter(asked) {
        // In RINEX 2 the civil code `*` is preferred to the precise one.
        for code in [b"*", band.codes].concat() {
            let find = |kind: u8| {
                let fits = |k: &Kind, c: u8| (k.kind, k.band, k.code) == (kind, band.digit, c);
                let same = kinds.iter().position(|k| fits(k, code));
                same.or_else(|| kinds.iter().position(|k| fits(k, b'*')))
            };
            let exact = Kind {
                kind: b'C',
                band: band.digit,
                code,
            };
            if let Some(pseudorange) = kinds.iter().position(|k| *k == exact) {
                out.push(Pick {
                    band: place,
                    code,
                    pseudorange,
                    carrier: find(b'L'),
                    doppler: find(b'D'),
                });
            }
        }
    }
    out
}

#[cfg(test)]
mod tests {
    use super::*;

    fn kinds(names: &str, system: System, version: u32) -> Vec<Kind> {
        let kind = |n: &str| Kind::of_3(n.as_bytes(), system, version).unwrap();
        names.split(' ').map(kind).collect()
    }

    #[test]
    fn frequencies_are_those_of_the_documents() {
        let band = |name| Band::of(name).unwrap();
        assert_eq!(band("G1").frequency(0), 1_575_420_000.0);
        assert_eq!(band("R1").frequency(-7), 1_598_062_500.0);
        assert_eq!(band("R2").frequency(6), 1_248_625_000.0);
        assert_eq!(band("C2").megahertz(), 1561);
        assert!((band("G2").slowing(0) - (77.0_f64 / 60.0).powi(2)).abs() < 1e-12);
        assert!(Band::of("G9").is_none() && Band::of("J1").is_none() && Band::of("").is_none());
    }

    #[test]
    fn the_first_code_that_a_file_has_is_taken() {
        let bands = chosen(None, None).ok().unwrap();
        let names = "C1W L1W D1W C1C L1C S1C C2L L2L";
        let found = picks(&kinds(names, System::Gps, 304), System::Gps, &bands);
        let codes: Vec<u8> = found.iter().map(|p| p.code).collect();
        assert_eq!(codes, b"CW");
        assert_eq!((found[0].pseudorange, found[0].carrier), (3, Some(4)));
        assert_eq!((found[0].doppler, found[1].doppler), (None, Some(2)));
    }

    #[test]
    fn rinex_2_has_one_carrier_for_both_codes() {
        let bands = chosen(None, None).ok().unwrap();
        let kinds: Vec<Kind> = ["L1", "C1", "L2", "P2", "P1", "D1"]
            .iter()
            .map(|n| Kind::of_2(n.as_bytes()).unwrap())
            .collect();
        let found = picks(&kinds, System::Gps, &bands);
        let places: Vec<usize> = found.iter().map(|p| p.pseudorange).collect();
        assert_eq!(places, [1, 4]);
        assert!(found
            .iter()
            .all(|p| (p.carrier, p.doppler) == (Some(0), Some(5))));
    }

    #[test]
    fn a_version_has_letters_for_civil_codes() {
        let bands = chosen(None, None).ok().unwrap();
        let kind = |n: &&str| Kind::of_2(n.as_bytes()).unwrap();
        let kinds: Vec<Kind> = ["P1", "L1", "CA", "LA"].iter().map(kind).collect();
        let found = picks(&kinds, System::Gps, &bands);
        assert_eq!((found[0].pseudorange, found[0].carrier), (2, Some(3)));
        assert_eq!((found[1].pseudorange, found[1].carrier), (0, Some(1)));
    }

    #[test]
    fn beidou_b1_had_another_digit_in_one_version() {
        let bands = chosen(None, Some("C")).ok().unwrap();
        let old = kinds("C1I L1I", System::Beidou, 302);
        assert_eq!(picks(&old, System::Beidou, &bands).len(), 1);
        let new = kinds("C1I L1I C1X", System::Beidou, 304);
        assert_eq!(picks(&new, System::Beidou, &bands).len(), 0);
        assert_eq!(
            picks(&kinds("C2I", System::Beidou, 304), System::Beidou, &bands).len(),
            1
        );
    }

    #[test]
    fn words_that_name_no_signal_are_told() {
        assert!(chosen(Some("G1,G1"), None).is_err());
        assert!(chosen(Some("L1"), None).is_err());
        assert!(chosen(None, Some("GX")).is_err());
        assert!(chosen(Some("G1"), Some("E")).is_err());
        assert_eq!(chosen(Some("G1,G5,E1"), Some("G")).ok().unwrap().len(), 2);
    }
}
