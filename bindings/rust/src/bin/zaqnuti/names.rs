//! The names of columns, and names that are nearly one of them.

/// Every column that a command reads or writes. A file may have those that a command has no use
/// for; a name that is none of these is most likely misspelt.
const KNOWN: &str = "week tow constellation svid band pseudorange carrier adr state \
    x y z vx vy vz clock modelled ionosphere correction elevation rate rx ry rz \
    dt dx dy dz north east down true_dx true_dy true_dz sigma_x sigma_y sigma_z \
    pair line screen sigma_a sigma_b huber mask rounds used screened chi pdop refusal satellites \
    odometer pulses file depot van day first_tow last_tow epochs refused carrier_mm odometer_mm \
    greatest_mm reached set_aside standing_mm counted_mm pulses_counted pulses_all coverage \
    distance_mm gap_s trips ml_per_km_carrier millilitres";

/// Checks whether a command reads or writes a column of this name.
pub fn is_known(name: &str) -> bool {
    known().any(|known| known == name)
}

fn known() -> impl Iterator<Item = &'static str> {
    KNOWN.split(' ').filter(|name| !name.is_empty())
}

/// Returns the known name from which a name differs by case, quotes or one letter, and by which of them.
pub fn near(name: &str) -> Option<(&'static str, &'static str)> {
    let bare = name.trim_matches(['"', '\'', '`', ' ']);
    let lower = bare.to_lowercase();
    let find = |fits: &dyn Fn(&str) -> bool| known().find(|k| fits(k));
    if let Some(known) = find(&|k| k == bare) {
        return Some((known, "by its quotes"));
    }
    if let Some(known) = find(&|k| k == lower) {
        return Some((known, "by its case"));
    }
    // Every name of one or two letters is near another one.
    let found = find(&|k| k.len() > 2 && one_letter_apart(k, &lower));
    found.map(|known| (known, "by one letter"))
}

/// Checks whether one letter added, left out or replaced turns one word into the other.
fn one_letter_apart(a: &str, b: &str) -> bool {
    let (a, b): (Vec<char>, Vec<char>) = (a.chars().collect(), b.chars().collect());
    let start = a.iter().zip(&b).take_while(|(x, y)| x == y).count();
    let (a, b) = (&a[start..], &b[start..]);
    match a.len().abs_diff(b.len()) {
        0 => !a.is_empty() && a[1..] == b[1..],
        1 if a.len() > b.len() => a[1..] == *b,
        1 => *a == b[1..],
        _ => false,
    }
}
