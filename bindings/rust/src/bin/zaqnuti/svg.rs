//! A picture of places in metres: plain SVG with two axes of one scale, ticks and a legend.

use std::fmt::Write;

/// How a series is drawn.
#[derive(Clone, Copy)]
pub enum Look {
    /// A broad line under the others.
    Band(&'static str),
    /// A line with a dot at each place.
    Path(&'static str),
    /// Dots alone.
    Dots(&'static str),
    /// Crosses alone.
    Crosses(&'static str),
}

/// Places that are drawn alike; a line runs through each part of them.
pub struct Series {
    pub name: String,
    pub look: Look,
    pub parts: Vec<Vec<[f64; 2]>>,
}

/// A picture, to the east and to the north.
pub struct Chart {
    pub title: String,
    pub note: String,
    pub series: Vec<Series>,
}

/// Pixels: the longer side of the plane, and what stands around it.
const SIDE: f64 = 560.0;
const LEFT: f64 = 70.0;
const TOP: f64 = 62.0;
const BOTTOM: f64 = 54.0;
const RIGHT: f64 = 215.0;

/// The part of the plane that is shown, and how large.
struct Frame {
    low: [f64; 2],
    high: [f64; 2],
    /// Pixels for each metre.
    scale: f64,
    step: f64,
}

impl Frame {
    /// Returns a frame that holds every place with some room; none where a place is out of all measure.
    fn of(series: &[Series]) -> Option<Self> {
        let places = || series.iter().flat_map(|s| s.parts.iter().flatten());
        let most = |k: usize| places().map(|p| p[k]).fold(0.0f64, f64::max);
        let least = |k: usize| places().map(|p| p[k]).fold(0.0f64, f64::min);
        let size = (most(0) - least(0)).max(most(1) - least(1)).max(0.01);
        if size.is_nan() || size > 1e9 || places().flatten().any(|x| !x.is_finite()) {
            return None;
        }
        let step = step(size / 5.0);
        // No side is less than two fifths of the other, so that the labels have room.
        let middle = |k: usize| (most(k) + least(k)) / 2.0;
        let reach = |k: usize| ((most(k) - least(k)) / 2.0).max(0.2 * size) + 0.06 * size;
        let low = [0, 1].map(|k| middle(k) - reach(k));
        let high = [0, 1].map(|k| middle(k) + reach(k));
        let scale = SIDE / (high[0] - low[0]).max(high[1] - low[1]);
        Some(Self {
            low,
            high,
            scale,
            step,
        })
    }

    fn width(&self) -> f64 {
        (self.high[0] - self.low[0]) * self.scale
    }

    fn height(&self) -> f64 {
        (self.high[1] - self.low[1]) * self.scale
    }

    /// Pixels of a place.
    fn at(&self, [east, north]: [f64; 2]) -> (f64, f64) {
        let x = LEFT + (east - self.low[0]) * self.scale;
        let y = TOP + (self.high[1] - north) * self.scale;
        (x, y)
    }

    /// Returns the ticks of an axis.
    fn ticks(&self, k: usize) -> impl Iterator<Item = f64> + '_ {
        let first = (self.low[k] / self.step).ceil() as i64;
        let last = (self.high[k] / self.step).floor() as i64;
        (first..=last).map(|i| i as f64 * self.step)
    }
}

/// Returns the first of 1, 2 and 5 times a power of ten that is not below a length.
fn step(length: f64) -> f64 {
    let power = 10f64.powf(length.log10().floor());
    let fits = [1.0, 2.0, 5.0].into_iter().find(|m| m * power >= length);
    fits.unwrap_or(10.0) * power
}

fn escaped(text: &str) -> String {
    text.replace('&', "&amp;")
        .replace('<', "&lt;")
        .replace('>', "&gt;")
}

/// Writing into a string does not fail.
macro_rules! put {
    ($out:expr, $($rest:tt)*) => { let _ = writeln!($out, $($rest)*); };
}

impl Chart {
    /// Returns the picture as text; none where a place is out of all measure.
    pub fn draw(&self) -> Option<String> {
        let frame = Frame::of(&self.series)?;
        let (width, height) = (LEFT + frame.width() + RIGHT, TOP + frame.height() + BOTTOM);
        let mut out = String::new();
        put!(
            out,
            r##"<svg xmlns="http://www.w3.org/2000/svg" width="{width:.0}" height="{height:.0}" viewBox="0 0 {width:.0} {height:.0}" font-family="sans-serif" font-size="12" fill="#222222">"##
        );
        put!(
            out,
            r##"<rect width="100%" height="100%" fill="#ffffff"/>"##
        );
        put!(
            out,
            r#"<text x="{LEFT}" y="26" font-size="16">{}</text>"#,
            escaped(&self.title)
        );
        put!(
            out,
            r##"<text x="{LEFT}" y="46" fill="#666666">{}</text>"##,
            escaped(&self.note)
        );
        axes(&mut out, &frame);
        for series in &self.series {
            for part in &series.parts {
                let places: Vec<(f64, f64)> = part.iter().map(|p| frame.at(*p)).collect();
                drawn(&mut out, series.look, &places);
            }
        }
        self.legend(&mut out, LEFT + frame.width() + 16.0);
        out += "</svg>\n";
        Some(out)
    }

    fn legend(&self, out: &mut String, x: f64) {
        for (i, series) in self.series.iter().enumerate() {
            let y = TOP + 10.0 + 22.0 * i as f64;
            let places = match series.look {
                Look::Band(_) | Look::Path(_) => vec![(x, y), (x + 20.0, y)],
                Look::Dots(_) | Look::Crosses(_) => vec![(x + 10.0, y)],
            };
            drawn(out, series.look, &places);
            let (x, y, name) = (x + 28.0, y + 4.0, escaped(&series.name));
            put!(out, r#"<text x="{x:.1}" y="{y:.1}">{name}</text>"#);
        }
    }
}

fn axes(out: &mut String, f: &Frame) {
    let (w, h) = (f.width(), f.height());
    let digits = (-f.step.log10().floor()).max(0.0) as usize;
    let label = |t: f64| format!("{:.digits$}", t + 0.0);
    let (right, foot) = (LEFT + w, TOP + h);
    for t in f.ticks(0) {
        let (x, _) = f.at([t, 0.0]);
        put!(
            out,
            r##"<path d="M{x:.1} {TOP}V{foot:.1}" stroke="#e4e4e4"/>"##
        );
        put!(
            out,
            r#"<text x="{x:.1}" y="{:.1}" text-anchor="middle">{}</text>"#,
            foot + 17.0,
            label(t)
        );
    }
    for t in f.ticks(1) {
        let (_, y) = f.at([0.0, t]);
        put!(
            out,
            r##"<path d="M{LEFT} {y:.1}H{right:.1}" stroke="#e4e4e4"/>"##
        );
        put!(
            out,
            r#"<text x="{}" y="{:.1}" text-anchor="end">{}</text>"#,
            LEFT - 8.0,
            y + 4.0,
            label(t)
        );
    }
    put!(
        out,
        r##"<rect x="{LEFT}" y="{TOP}" width="{w:.1}" height="{h:.1}" fill="none" stroke="#888888"/>"##
    );
    let (x, y) = (LEFT + w / 2.0, TOP + h / 2.0);
    put!(
        out,
        r#"<text x="{x:.1}" y="{:.1}" text-anchor="middle">east (m)</text>"#,
        foot + 40.0
    );
    put!(
        out,
        r#"<text transform="translate(18 {y:.1}) rotate(-90)" text-anchor="middle">north (m)</text>"#
    );
}

/// Draws places of a part as the series has it.
fn drawn(out: &mut String, look: Look, places: &[(f64, f64)]) {
    let line = || {
        let points = places.iter().map(|(x, y)| format!("{x:.1},{y:.1}"));
        points.collect::<Vec<_>>().join(" ")
    };
    match look {
        Look::Band(colour) => {
            put!(
                out,
                r#"<polyline points="{}" fill="none" stroke="{colour}" stroke-width="9" stroke-linecap="round" stroke-linejoin="round"/>"#,
                line()
            );
        }
        Look::Path(colour) => {
            put!(
                out,
                r#"<polyline points="{}" fill="none" stroke="{colour}" stroke-width="1.5"/>"#,
                line()
            );
            drawn(out, Look::Dots(colour), places);
        }
        Look::Dots(colour) => {
            for (x, y) in places {
                put!(
                    out,
                    r#"<circle cx="{x:.1}" cy="{y:.1}" r="2.6" fill="{colour}"/>"#
                );
            }
        }
        Look::Crosses(colour) => {
            for (x, y) in places {
                let (left, top) = (x - 5.0, y - 5.0);
                put!(
                    out,
                    r#"<path d="M{left:.1} {top:.1}l10 10m0 -10l-10 10" stroke="{colour}" stroke-width="2.2"/>"#
                );
            }
        }
    }
}
