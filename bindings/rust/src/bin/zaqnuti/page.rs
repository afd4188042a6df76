//! The ranking as one page for a browser, which needs no network.

use crate::depots::{Bounds, Depot};
use crate::epochs::Time;
use crate::ledger::Driven;
use crate::report::kilometres;

const CSS: &str = include_str!("page.css");
const SCRIPT: &str = include_str!("page.js");

/// Nothing is fetched, whatever a name may hold.
const POLICY: &str = "default-src 'none'; style-src 'unsafe-inline'; script-src 'unsafe-inline'";

/// The stripes of a bar that can't be compared.
const HATCH: &str = "<svg width=\"0\" height=\"0\" style=\"position:absolute\" aria-hidden=\"true\"><defs>\
<pattern id=\"hatch\" width=\"7\" height=\"7\" patternUnits=\"userSpaceOnUse\" patternTransform=\"rotate(45)\">\
<rect class=\"unranked\" width=\"7\" height=\"7\"/><line class=\"hatch\" x1=\"0\" y1=\"0\" x2=\"0\" y2=\"7\"/></pattern></defs></svg>";

/// Returns a text as HTML shows it.
fn escaped(text: &str) -> String {
    let mut out = String::new();
    for c in text.chars() {
        match c {
            '&' => out += "&amp;",
            '<' => out += "&lt;",
            '>' => out += "&gt;",
            '"' => out += "&quot;",
            '\'' => out += "&#39;",
            c => out.push(c),
        }
    }
    out
}

fn percent(part: Option<f64>) -> String {
    part.map_or("none".into(), |c| format!("{:.2} %", 100.0 * c))
}

/// Returns the page.
pub fn written(depots: &[Depot], drives: &[Driven], bounds: Bounds) -> String {
    let trips = drives.len();
    let far = kilometres(depots.iter().map(|d| d.distance).sum());
    let period = period(drives);
    let best = depots.iter().find(|d| d.rank.is_some());
    let bars: String = depots.iter().map(|d| bar(d, depots, best)).collect();
    let (table, footer) = (table(depots), footer(&period, bounds));
    // Printed smaller, so that they fit one sheet.
    let many = if depots.len() > 10 {
        " class=\"many\""
    } else {
        ""
    };
    format!(
        "<!doctype html>\n<html lang=\"en\"{many}>\n<head>\n<meta charset=\"utf-8\">\n\
<meta name=\"viewport\" content=\"width=device-width, initial-scale=1\">\n\
<meta http-equiv=\"Content-Security-Policy\" content=\"{POLICY}\">\n\
<title>Fuel per kilometre by depot</title>\n<style>\n{CSS}</style>\n</head>\n<body>\n<main>\n\
<h1>Fuel per kilometre by depot</h1>\n\
<p class=\"quiet\">{period}; {trips} trips, {far} km</p>\n{HATCH}\n\
<h2>Millilitres for a kilometre, best first</h2>\n<figure>\n<div class=\"bars\">\n{bars}</div>\n{LEGEND}</figure>\n\
<h2>The figures</h2>\n{table}{footer}</main>\n<script>\n{SCRIPT}</script>\n</body>\n</html>\n"
    )
}

const LEGEND: &str = "<figcaption>\
<svg class=\"key\" style=\"margin-left:0\"><rect class=\"counted\" width=\"100%\" height=\"100%\"/></svg>share of the pulses that was measured by carrier phases (coverage)\
<svg class=\"key\"><rect class=\"bar\" width=\"100%\" height=\"100%\"/></svg>scaled up by the odometer\
<svg class=\"key\"><rect fill=\"url(#hatch)\" width=\"100%\" height=\"100%\"/></svg>can't be compared</figcaption>\n";

/// One depot's bar; the darker part of it is its coverage.
fn bar(depot: &Depot, depots: &[Depot], best: Option<&Depot>) -> String {
    let most = depots
        .iter()
        .filter_map(Depot::thousandths)
        .max()
        .unwrap_or(1)
        .max(1);
    let width = |part: f64| 98.0 * part * depot.thousandths().unwrap_or(0) as f64 / most as f64;
    let (whole, coverage) = (width(1.0), depot.coverage());
    let figure = depot
        .figure()
        .map_or("no figure".to_string(), |f| format!("{f} ml/km"));
    let shapes = match depot.rank {
        Some(_) => format!(
            "<rect class=\"bar\" width=\"{whole:.2}%\" height=\"100%\"/>\
<rect class=\"counted\" width=\"{:.2}%\" height=\"100%\"/>",
            width(coverage.unwrap_or(0.0))
        ),
        None => format!(
            "<rect class=\"paler\" width=\"{whole:.2}%\" height=\"100%\"/>\
<rect class=\"faint\" width=\"{:.2}%\" height=\"100%\"/>\
<rect fill=\"url(#hatch)\" width=\"{whole:.2}%\" height=\"100%\"/>",
            width(coverage.unwrap_or(0.0))
        ),
    };
    let rank = depot.rank.map_or(String::new(), |r| format!("{r}. "));
    let name = escaped(&depot.name);
    let above = best.and_then(|best| above(depot, best)).unwrap_or_default();
    let words = format!("{figure}{above}, coverage {}", percent(coverage));
    let why = match depot.note() {
        note if note.is_empty() => String::new(),
        note if depot.rank.is_none() => {
            format!("<div class=\"why\">Not ranked: {}.</div>\n", escaped(&note))
        }
        note => format!("<div class=\"why\">{}.</div>\n", escaped(&note)),
    };
    format!(
        "<div class=\"depot\">\n<div class=\"head\"><span class=\"name\">{rank}{name}</span>\
<span class=\"figure\">{words}</span></div>\n\
<svg role=\"img\" aria-label=\"{name}: {words}\"><rect class=\"track\" width=\"100%\" height=\"100%\"/>{shapes}</svg>\n{why}</div>\n"
    )
}

/// Returns how far a ranked depot is above the best.
fn above(depot: &Depot, best: &Depot) -> Option<String> {
    depot.rank.filter(|&rank| rank > 1)?;
    let (own, least) = (depot.thousandths()? as f64, best.thousandths()? as f64);
    (least > 0.0).then(|| format!(", {:.1} % above the best", 100.0 * (own - least) / least))
}

const HEADS: [(&str, &str); 10] = [
    ("Rank", ""),
    ("Depot", "text"),
    ("ml/km", ""),
    ("ml/km by carrier alone", ""),
    ("Coverage", ""),
    ("Odometer above carrier, %", ""),
    ("Refused", ""),
    ("km", ""),
    ("Trips", ""),
    ("Note", "text"),
];

fn table(depots: &[Depot]) -> String {
    let head =
        |(name, class): &(&str, &str)| format!("<th scope=\"col\" class=\"{class}\">{name}</th>");
    let heads: String = HEADS.iter().map(head).collect();
    let rows: String = depots.iter().map(row).collect();
    format!(
        "<div class=\"scroll\"><table>\n<thead><tr>{heads}</tr></thead>\n<tbody>\n{rows}</tbody>\n</table></div>\n"
    )
}

/// A cell: what it is sorted by, and what it shows.
struct Cell {
    class: &'static str,
    key: String,
    shown: String,
}

impl Cell {
    /// Returns a number, a dash where there is none.
    fn number(x: Option<String>) -> Self {
        Self {
            class: "",
            key: x.clone().unwrap_or_default(),
            shown: x.unwrap_or("\u{2013}".into()),
        }
    }

    fn text(class: &'static str, text: String) -> Self {
        let (key, shown) = (text.clone(), text);
        Self { class, key, shown }
    }

    fn written(&self, label: &str) -> String {
        let (class, key, shown) = (self.class, escaped(&self.key), escaped(&self.shown));
        format!("<td class=\"{class}\" data-label=\"{label}\" data-key=\"{key}\">{shown}</td>")
    }
}

fn row(depot: &Depot) -> String {
    let refused = depot.refused.total();
    let shown = match refused {
        0 => "0".to_string(),
        n => format!("{n} ({})", depot.refused.words()),
    };
    let cells = [
        Cell::number(depot.rank.map(|r| r.to_string())),
        Cell::text("text", depot.name.clone()),
        Cell::number(depot.figure()),
        Cell::number(depot.by_carrier().map(|x| x.to_string())),
        Cell::number(depot.coverage().map(|c| format!("{c:.4}"))),
        Cell::number(depot.difference().map(|d| format!("{d:.3}"))),
        Cell {
            class: "",
            key: refused.to_string(),
            shown,
        },
        Cell::number(depot.is_complete().then(|| kilometres(depot.distance))),
        Cell::number(Some(depot.trips.to_string())),
        Cell::text("text note", depot.note()),
    ];
    let cells = cells.iter().zip(HEADS);
    let cells: String = cells
        .map(|(cell, (label, _))| cell.written(label))
        .collect();
    format!("<tr>{cells}</tr>\n")
}

fn footer(period: &str, bounds: Bounds) -> String {
    let (coverage, difference) = (bounds.coverage, bounds.difference);
    let version = env!("CARGO_PKG_VERSION");
    format!(
        "<footer>\n<p>Period: {period}. Settings: a depot is ranked from a coverage of {coverage} up, \
where odometer and carrier distance differ by at most {difference} %. Library: zaqnuti {version}.</p>\n\
<p>Millilitres for a kilometre are the depot's fuel by the summed distance of its trips. A trip's distance is its counted \
carrier distance times all its odometer pulses by the counted ones, so that bridges and tunnels are in it.</p>\n\
<p>Proved: each drive's totals and distance. Not proved: reading the CSV files, adding up the drives, and ranking.</p>\n</footer>\n"
    )
}

/// Returns the days from the first drive to the last, by GPS time; by their own names where there are no weeks.
fn period(drives: &[Driven]) -> String {
    let days: Vec<i64> = drives.iter().filter_map(|d| day(d.first)).collect();
    let range = |first: String, last: String| match first == last {
        true => first,
        false => format!("{first} to {last}"),
    };
    match (days.iter().min(), days.iter().max()) {
        (Some(&first), Some(&last)) => range(date(first), date(last)),
        _ => {
            let names = || {
                drives
                    .iter()
                    .map(|d| d.labels.day.as_str())
                    .filter(|d| !d.is_empty())
            };
            match (names().min(), names().max()) {
                (Some(first), Some(last)) => escaped(&range(first.into(), last.into())),
                _ => "dates not known".into(),
            }
        }
    }
}

/// Days since 1970-01-01 of a GPS time, whose week 0 began on 1980-01-06.
fn day(time: Time) -> Option<i64> {
    let seconds = time.tow().clamp(0.0, 604_800.0);
    time.week()
        .map(|week| 3657 + 7 * i64::from(week) + (seconds / 86_400.0) as i64)
}

/// Returns a day of the Gregorian calendar.
fn date(days: i64) -> String {
    let days = days + 719_468;
    let (era, day) = (days.div_euclid(146_097), days.rem_euclid(146_097));
    let year = (day - day / 1460 + day / 36_524 - day / 146_096) / 365;
    let day = day - (365 * year + year / 4 - year / 100);
    let month = (5 * day + 2) / 153;
    let (day, month) = (
        day - (153 * month + 2) / 5 + 1,
        if month < 10 { month + 3 } else { month - 9 },
    );
    let year = year + 400 * era + i64::from(month <= 2);
    format!("{year:04}-{month:02}-{day:02}")
}
