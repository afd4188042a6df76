//! Texts of the line form: good ones, very long ones, and damaged ones.

use crate::estimate::Displacement;
use crate::line_form::{carrier_line, lines, settings_line, text as text_of, BYTES};
use crate::random::Random;
use crate::sky;
use drifters_gnss::tdcp::Carrier;

/// The example of docs/SCOPE.md, which gives `R,7`.
pub const EXAMPLE: &str = "S,3FF0000000000000,0000000000000000,0000000000000000,0000000000000000,3FE0000000000000,3FF0000000000000,0000000000000000,3FF8000000000000,4024000000000000,4\n";

/// Whole numbers at the edges of each width, some that wrap to a small one, and what is none in the form.
pub const WHOLES: [&str; 46] = [
    "0",
    "1",
    "9",
    "10",
    "255",
    "256",
    "65535",
    "257",
    "65536",
    "65537",
    "2147483647",
    "2147483648",
    "4294967295",
    "4294967296",
    "4294967297",
    "18446744073709551615",
    "18446744073709551616",
    "18446744073709551617",
    "340282366920938463463374607431768211457",
    "99999999999999999999999999",
    "50",
    "51",
    "-1",
    "-8",
    "-2147483648",
    "-2147483649",
    "-4294967295",
    "-4294967296",
    "-0",
    "00",
    "01",
    "-01",
    "007",
    "+0",
    "+1",
    "-",
    "--1",
    "",
    " 1",
    "1 ",
    "1.0",
    "1e1",
    "0x1",
    "1_0",
    "A",
    "\u{661}",
];

/// Bytes of the form, and those that are most easily mistaken for one of it.
pub const BYTES_NEAR: &[u8] =
    b"0123456789ABCDEFabcdefSPCspcGgXx+-,,\n\n\r\t .;\"\0\x7F\x80\xFF\xEF\xBB\xBF";

/// The shortest line of a carrier, with its LF.
const SHORTEST: usize = 112;
/// How much longer the longest is: 2, 4 and 9 digits, and 9 digits and a minus sign.
const WIDER: usize = 25;

/// The lines of an input with P and C lines in any mixture, each epoch in its own order.
fn mixed(random: &mut Random) -> Vec<String> {
    let input: Displacement = sky::input(random);
    let mut all = lines(&input);
    let mut current = all
        .split_off(1 + input.previous.len())
        .into_iter()
        .peekable();
    let mut previous = all.split_off(1).into_iter().peekable();
    // Previous carriers first, current ones first, in turn, or by chance.
    let kind = random.below(4);
    let mut turn = false;
    while previous.peek().is_some() || current.peek().is_some() {
        turn = match kind {
            0 => current.peek().is_some(),
            1 => previous.peek().is_none(),
            2 => !turn,
            _ => random.below(2) == 0,
        };
        all.extend(if turn {
            current.next()
        } else {
            previous.next()
        });
    }
    all
}

/// The line of a carrier that is so much longer than the shortest.
fn widened(random: &mut Random, by: usize) -> String {
    let mut left = by;
    let mut digits = |most: usize| {
        let some = left.min(most);
        left -= some;
        some as u32
    };
    let constellation = 10u8.pow(digits(2));
    let svid = 10u16.pow(digits(4));
    let band = 10u32.pow(digits(9));
    let state = match digits(10) {
        10 => -(10i32.pow(9)),
        some => 10i32.pow(some),
    };
    let c = Carrier {
        constellation,
        svid,
        band,
        adr: random.float(),
        state,
        satellite: [random.float(), random.float(), random.float()],
        elevation: random.float(),
        rate: random.float(),
    };
    carrier_line(random.pick(&['P', 'C']), &c)
}

/// The lines of a good text of so many bytes; from about 300 on any number can be had.
pub fn of_length(random: &mut Random, bytes: usize) -> Vec<String> {
    let mut input: Displacement = sky::input(random);
    input.settings.iterations = 4;
    let mut out = vec![settings_line(&input)];
    let rest = bytes - (out[0].len() + 1);
    let mut wider = rest % SHORTEST;
    for _ in 0..rest / SHORTEST {
        let by = wider.min(WIDER);
        wider -= by;
        out.push(widened(random, by));
    }
    out
}

/// A text at or about the greatest length, or about 64 records of an epoch.
fn long(random: &mut Random) -> Vec<u8> {
    match random.below(8) {
        0 | 1 => text_of(&of_length(random, BYTES)),
        2 => text_of(&of_length(random, BYTES + 1)),
        3 => {
            let by = random.place(5000);
            text_of(&of_length(random, BYTES - 2500 + by))
        }
        // A longer text of which the first bytes would do.
        4 => {
            let mut out = text_of(&of_length(random, BYTES));
            out.extend(EXAMPLE.bytes());
            out
        }
        // Both too long and damaged, or as long as can be and damaged.
        5 => {
            let bytes = BYTES + random.place(2);
            let mut out = text_of(&of_length(random, bytes));
            turn_bytes(random, &mut out);
            out
        }
        _ => {
            let mut all = mixed(random);
            let letter = random.pick(&["P", "C"]);
            let of = |l: &&String| l.starts_with(letter);
            let Some(last) = all.iter().rfind(of).cloned() else {
                return text_of(&all);
            };
            let wanted = 63 + random.place(4);
            let there = all.iter().filter(of).count();
            all.resize(all.len() + wanted.saturating_sub(there), last);
            text_of(&all)
        }
    }
}

/// A float's field: any pattern, or what is none in the form.
fn float_field(random: &mut Random, old: &str) -> String {
    match random.below(12) {
        0 => old.to_lowercase(),
        1 => old.get(1..).unwrap_or("").to_string(),
        2 => format!("0{old}"),
        3 => format!("{old}0"),
        4 => format!("0x{}", old.get(2..).unwrap_or("")),
        5 => format!("+{}", old.get(1..).unwrap_or("")),
        6 => String::new(),
        // A NaN of any sign and payload.
        7 => format!("{:016X}", 0x7FF0_0000_0000_0000 | random.bits()),
        _ => format!("{:016X}", random.pattern()),
    }
}

/// Replaces a field, or changes how many there are.
fn turn_field(random: &mut Random, line: &mut String) {
    let mut fields: Vec<String> = line.split(',').map(str::to_string).collect();
    let place = random.place(fields.len());
    match random.below(24) {
        0 => drop(fields.remove(place)),
        1 => fields.push(String::new()),
        2 => fields.insert(place, String::new()),
        3 => {
            let twice = fields[place].clone();
            fields.insert(place, twice);
        }
        4 => fields.truncate(place),
        5 => fields[place] = format!(" {}", fields[place]),
        6 => fields[place] += " ",
        7 => fields[place] += "\r",
        8 => fields[place] = format!("\"{}\"", fields[place]),
        // The letter is the first of them.
        9 => {
            fields[0] = random
                .pick(&["S", "P", "C", "s", "p", "c", "A", "R", ""])
                .to_string()
        }
        10..=14 => {
            let wide = if fields[0] == "S" {
                fields.len() - 1
            } else {
                random.pick(&[1, 2, 3, 5])
            };
            if let Some(field) = fields.get_mut(wide) {
                *field = random.pick(&WHOLES).to_string();
            }
        }
        15 => fields[place] = random.pick(&WHOLES).to_string(),
        _ => fields[place] = float_field(random, &fields[place]),
    }
    *line = fields.join(",");
}

/// Changes which lines there are.
fn turn_lines(random: &mut Random, all: &mut Vec<String>) {
    let place = random.place(all.len());
    let other = random.place(all.len());
    match random.below(9) {
        0 => drop(all.remove(0)),
        1 => {
            let again = all[0].clone();
            all.insert(1 + place, again);
        }
        2 => all.swap(0, place),
        3 => all.insert(random.pick(&[0, place, all.len()]), String::new()),
        4 => all.swap(place, other),
        5 => {
            let again = all[place].clone();
            all.insert(other, again);
        }
        6 => drop(all.remove(place)),
        7 => all.insert(
            place,
            random
                .pick(&["S", "P", "C", ",", "P,", "R,7", "#"])
                .to_string(),
        ),
        _ => {
            let joined = format!("{},{}", all[place], all[other]);
            all[place] = joined;
        }
    }
}

/// Changes bytes of a text.
fn turn_bytes(random: &mut Random, text: &mut Vec<u8>) {
    if text.is_empty() {
        return text.push(random.pick(BYTES_NEAR));
    }
    let place = random.place(text.len());
    let line_ends: Vec<usize> = (0..text.len()).filter(|&k| text[k] == b'\n').collect();
    match random.below(13) {
        // CRLF everywhere, or once.
        0 => line_ends.iter().rev().for_each(|&k| text.insert(k, b'\r')),
        1 if !line_ends.is_empty() => text.insert(random.pick(&line_ends), b'\r'),
        // The last LF is missing, or any other.
        2 => drop(text.pop()),
        3 if !line_ends.is_empty() => drop(text.remove(random.pick(&line_ends))),
        4 => text.truncate(place),
        5 => text[place] ^= 1 << random.below(8),
        6 => text[place] = random.pick(BYTES_NEAR),
        7 => text[place] = random.bits() as u8,
        8 => drop(text.remove(place)),
        9 => text.insert(place, random.pick(BYTES_NEAR)),
        // The byte order mark.
        10 => drop(text.splice(0..0, *b"\xEF\xBB\xBF")),
        11 => text.push(random.pick(b"\0\n\r ,\x1A")),
        _ => {
            let end = (place + 1 + random.place(200)).min(text.len());
            drop(text.drain(place..end));
        }
    }
}

/// A short text of any bytes, or next to nothing.
fn short(random: &mut Random) -> Vec<u8> {
    match random.below(8) {
        0 => Vec::new(),
        1 => EXAMPLE.as_bytes().to_vec(),
        2 => random
            .pick(&["\n", "\n\n", "S\n", "S", "P\n", "\0", " \n", "\r\n"])
            .into(),
        3 => (0..random.place(300))
            .map(|_| random.pick(BYTES_NEAR))
            .collect(),
        4 => (0..random.place(300))
            .map(|_| random.bits() as u8)
            .collect(),
        5 => vec![random.pick(BYTES_NEAR); random.pick(&[1, 16, BYTES, BYTES + 1])],
        _ => {
            let mut out = EXAMPLE.as_bytes().to_vec();
            turn_bytes(random, &mut out);
            out
        }
    }
}

/// A text of any kind.
pub fn text(random: &mut Random) -> Vec<u8> {
    match random.below(16) {
        0..=7 => text_of(&mixed(random)),
        8..=10 => {
            let mut all = mixed(random);
            for _ in 0..1 + random.below(2) {
                let place = random.place(all.len());
                turn_field(random, &mut all[place]);
            }
            text_of(&all)
        }
        11 => {
            let mut all = mixed(random);
            turn_field(random, &mut all[0]);
            text_of(&all)
        }
        12 => {
            let mut all = mixed(random);
            turn_lines(random, &mut all);
            text_of(&all)
        }
        13 => {
            let mut out = text_of(&mixed(random));
            for _ in 0..1 + random.below(3) {
                turn_bytes(random, &mut out);
            }
            out
        }
        14 => long(random),
        _ => short(random),
    }
}
