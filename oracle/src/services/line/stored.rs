//! The stored texts with their answers' lines: the text's length and its bytes, the line's length and its bytes.

use super::texts::{of_length, text, EXAMPLE, WHOLES};
use crate::estimate::Displacement;
use crate::line_form::{answer, carrier_line, line, lines, settings_line, text as text_of, BYTES};
use crate::random::Random;
use crate::sky::Input;
use crate::vectors::{packed, Vectors, AS_THEY_COME};
use drifters_gnss::tdcp::Settings;
use std::collections::BTreeMap;
use std::sync::atomic::Ordering;

/// How many texts of the comparison have each answer: acceptance, and each number.
const EACH: usize = 4;
/// The numbers that a text can meet; 0 is acceptance.
const NUMBERS: [u8; 10] = [0, 1, 2, 3, 4, 5, 7, 8, 9, 10];
/// The longest text of those.
const SHORT: usize = 8000;

/// The places of whole numbers in a carrier's line, and that of the rounds in line `S`.
const CARRIER_WHOLES: [usize; 4] = [1, 2, 3, 5];
const ROUNDS: usize = 10;

/// A line with one field replaced.
fn with(line: &str, place: usize, field: &str) -> String {
    let mut fields: Vec<&str> = line.split(',').collect();
    fields[place] = field;
    fields.join(",")
}

/// What breaks the form in a text that is accepted, one thing at a time.
fn broken(good: &[String]) -> Vec<Vec<u8>> {
    let whole = String::from_utf8(text_of(good)).expect("ASCII");
    let first = good[0].as_str();
    let rest = whole.strip_prefix(first).expect("its first line");
    let lower = whole.replacen(first, &first.to_lowercase().replacen('s', "S", 1), 1);
    let texts = [
        whole.replace('\n', "\r\n"),
        whole.replacen('\n', "\r\n", 1),
        whole.replacen('\n', "\n\n", 1),
        whole.replacen('\n', ",\n", 1),
        whole.replacen(',', ", ", 1),
        whole.replacen(',', ",,", 1),
        whole.replacen(',', ";", 1),
        whole.trim_end().to_string(),
        format!("{whole}\n"),
        format!("{whole}\0"),
        format!("\0{whole}"),
        format!("\n{whole}"),
        format!(" {whole}"),
        format!("\u{FEFF}{whole}"),
        format!("{whole}{first}\n"),
        format!("{}{first}\n", &rest[1..]),
        rest[1..].to_string(),
        lower,
        whole.replacen("\nP", "\np", 1),
        whole.replacen("\nC", "\nX", 1),
        whole.replacen("S,", "S,0", 1),
        format!("S,{}", &whole[3..]),
        format!("{whole}P\n"),
        format!("{whole}C,"),
    ];
    texts.map(String::into_bytes).to_vec()
}

/// Each whole number of the form with each edge of a width.
fn wholes(good: &Displacement) -> Vec<Vec<u8>> {
    let settings = settings_line(good);
    let carrier = carrier_line('C', &good.current[0]);
    let rounds = WHOLES.map(|field| text_of(&[with(&settings, ROUNDS, field)]));
    let records = CARRIER_WHOLES.iter().flat_map(|&place| {
        let text = |field| text_of(&[settings.clone(), with(&carrier, place, field)]);
        WHOLES.map(text)
    });
    rounds.into_iter().chain(records).collect()
}

/// Six equal pairs and zero rounds.
fn six_equal_pairs(good: &Displacement) -> Displacement {
    let epoch = vec![good.current[0]; 6];
    Displacement {
        previous: epoch.clone(),
        current: epoch,
        settings: Settings {
            iterations: 0,
            ..good.settings
        },
        ..*good
    }
}

/// Texts as the comparison has them, the same number for each answer; at scale so many as they come.
fn of_each(random: &mut Random) -> Vec<Vec<u8>> {
    let many = AS_THEY_COME.load(Ordering::Relaxed);
    if many > 0 {
        let short = |t: &Vec<u8>| t.len() <= SHORT;
        return std::iter::repeat_with(|| text(random))
            .filter(short)
            .take(many)
            .collect();
    }
    let mut found: BTreeMap<u8, usize> = NUMBERS.map(|n| (n, 0)).into();
    let mut out = Vec::new();
    while found.values().any(|&k| k < EACH) {
        let one = text(random);
        if one.len() > SHORT {
            continue;
        }
        let number = answer(&one).err().unwrap_or(0);
        let so_far = found.entry(number).or_default();
        if *so_far < EACH {
            *so_far += 1;
            out.push(one);
        }
    }
    out
}

/// An input that is accepted.
fn accepted(random: &mut Random) -> Displacement {
    loop {
        let input = Displacement::clean(random, 10);
        if input.answer().is_ok() {
            return input;
        }
    }
}

/// The texts, and one of them with its line altered.
pub fn vectors(random: &mut Random) -> Vectors {
    let good = accepted(random);
    let good_lines = lines(&good);
    let still = lines(&six_equal_pairs(&good));
    let mut texts = vec![
        EXAMPLE.into(),
        Vec::new(),
        text_of(&good_lines),
        text_of(&still),
    ];
    texts.extend(broken(&good_lines));
    texts.extend(wholes(&good));
    texts.extend(of_each(random));
    texts.push(text_of(&of_length(random, BYTES)));
    texts.push(text_of(&of_length(random, BYTES + 1)));
    let case = |text: &Vec<u8>| (packed(text), packed(&line(&answer(text))));
    let good = packed(&texts[2]);
    let altered = alterations(&line(&answer(&texts[2])));
    Vectors {
        cases: texts.iter().map(case).collect(),
        altered: altered.iter().map(|l| (good.clone(), packed(l))).collect(),
    }
}

/// A line with one bit turned, a byte less and a byte more: the replay has to tell each from the line.
fn alterations(line: &[u8]) -> Vec<Vec<u8>> {
    let turned = (0..line.len()).map(|k| {
        let mut altered = line.to_vec();
        altered[k] ^= 1;
        altered
    });
    let lengths = [line[..line.len() - 1].to_vec(), [line, b"\n"].concat()];
    turned.chain(lengths).collect()
}

#[cfg(test)]
mod tests {
    use super::*;

    #[test]
    fn what_is_stored_has_its_answer() {
        let mut random = Random::new(1, "stored");
        let good = accepted(&mut random);
        let still = answer(&text_of(&lines(&six_equal_pairs(&good))));
        let zeros = ",0000000000000000".repeat(3);
        assert_eq!(line(&still), format!("A,6,0{zeros}\n").into_bytes());
        assert_eq!(line(&answer(EXAMPLE.as_bytes())), b"R,7\n");
        let numbers = broken(&lines(&good)).into_iter().map(|t| answer(&t).err());
        assert!(numbers.eq([Some(1); 24]));
        for (bytes, number) in [(BYTES, 2), (BYTES + 1, 1)] {
            let text = text_of(&of_length(&mut random, bytes));
            assert_eq!((text.len(), answer(&text).err()), (bytes, Some(number)));
        }
    }
}
