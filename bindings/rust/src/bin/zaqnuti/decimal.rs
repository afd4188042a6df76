//! Floats as decimals that are read back to the same bits.

/// The bits of the NaN that is written by the word alone.
const QUIET: u64 = 0x7FF8_0000_0000_0000;

/// Returns the shortest decimal that reads back as x; `inf`, `-inf`, `NaN`, or `NaN:` and its bits.
pub fn written(x: f64) -> String {
    match x.to_bits() {
        bits if x.is_nan() && bits != QUIET => format!("NaN:{bits:016X}"),
        _ => format!("{x:?}"),
    }
}

/// Returns the float of a decimal, to the nearest, or of the words that `written` gives.
pub fn read(field: &str) -> Option<f64> {
    if let Some(digits) = field.strip_prefix("NaN:") {
        let x = f64::from_bits(hexadecimal(digits)?);
        return x.is_nan().then_some(x);
    }
    match field.parse::<f64>() {
        // A sign before NaN would be lost or not by the reader's choice.
        Ok(x) if x.is_nan() => Some(f64::from_bits(QUIET)),
        other => other.ok(),
    }
}

/// Returns the number of 16 upper-case hexadecimal digits, as the line form has them.
pub fn hexadecimal(digits: &str) -> Option<u64> {
    let fits = |b: u8| b.is_ascii_digit() || (b'A'..=b'F').contains(&b);
    match digits.len() == 16 && digits.bytes().all(fits) {
        true => u64::from_str_radix(digits, 16).ok(),
        false => None,
    }
}

/// Metres for reading, to the millimetre; zero bears no sign.
pub fn metres(x: f64) -> String {
    let text = format!("{x:.3}");
    match text.as_str() {
        "-0.000" => "0.000".into(),
        _ => text,
    }
}
