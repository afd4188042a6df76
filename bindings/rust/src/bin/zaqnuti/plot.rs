//! `zaqnuti plot`: a drive's path as a picture.

use std::path::Path;

use crate::answer::sum_up;
use crate::args::Args;
use crate::fault::{said, Run};
use crate::local::Plane;
use crate::output::Output;
use crate::pairs::{Pair, Pairs};
use crate::series::VALUED;
use crate::svg::{Chart, Look, Series};
use crate::tally::Tally;

pub const HELP: &str = "\
zaqnuti plot [OPTIONS] [FILE] -o PICTURE.svg: the path of a drive

The displacements of all pairs joined end to end, to the east and the north of
the start; the true path beside it where true_dx, true_dy, true_dz are given; a
cross for each pair that is refused. After a refusal the path goes on at the true
place, or where it stood if that is not known. The columns and the options of a
series are those of `zaqnuti displacement`.
";

/// The most pairs that are drawn.
const MOST: usize = 100_000;

/// A path on its way.
struct Drive {
    plane: Plane,
    at: [f64; 2],
    true_at: [f64; 2],
    parts: Vec<Vec<[f64; 2]>>,
    truth: Vec<[f64; 2]>,
    refused: Vec<[f64; 2]>,
    tally: Tally,
    pairs: usize,
    /// The squares of the displacements' errors, and of how many.
    squares: (f64, usize),
}

fn plus(a: [f64; 2], b: [f64; 2]) -> [f64; 2] {
    [a[0] + b[0], a[1] + b[1]]
}

impl Drive {
    /// Nothing driven yet, at the place of the first pair.
    fn new(start: [f64; 3]) -> Self {
        Self {
            plane: Plane::at(start),
            at: [0.0; 2],
            true_at: [0.0; 2],
            parts: vec![vec![[0.0; 2]]],
            truth: Vec::new(),
            refused: Vec::new(),
            tally: Tally::default(),
            pairs: 0,
            squares: (0.0, 0),
        }
    }

    /// One pair more.
    fn add(&mut self, pair: &Pair) {
        self.pairs += 1;
        if let Some(moved) = pair.truth {
            if self.truth.is_empty() {
                self.truth.push(self.true_at);
            }
            self.true_at = plus(self.true_at, self.plane.parts(moved));
            self.truth.push(self.true_at);
        }
        match pair.solve() {
            Ok(d) => self.go([d.delta.x, d.delta.y, d.delta.z], pair.truth),
            Err(why) => {
                self.tally.add(why.number(), 1);
                if pair.truth.is_some() {
                    self.at = self.true_at;
                }
                self.refused.push(self.at);
                self.parts.push(vec![self.at]);
            }
        }
    }

    /// Goes on by a displacement that was answered.
    fn go(&mut self, moved: [f64; 3], truth: Option<[f64; 3]>) {
        self.at = plus(self.at, self.plane.parts(moved));
        self.parts.last_mut().expect("one at least").push(self.at);
        if let Some(truth) = truth {
            let square = |k: usize| (moved[k] - truth[k]).powi(2);
            self.squares.0 += (0..3).map(square).sum::<f64>();
            self.squares.1 += 1;
        }
    }

    /// Returns the picture, under a title.
    fn chart(self, title: String) -> Chart {
        let (pairs, refused) = (self.pairs, self.refused.len());
        let off = match self.squares {
            (_, 0) => String::new(),
            (sum, n) => {
                let root = (sum / n as f64).sqrt();
                format!("; displacements {root:.3} m off the truth (root of the mean square)")
            }
        };
        let series = |name: &str, look, parts: Vec<Vec<[f64; 2]>>| Series {
            name: name.to_string(),
            look,
            parts,
        };
        let mut all = vec![
            series("truth", Look::Band("#c9dcec"), vec![self.truth]),
            series("displacements", Look::Path("#0072b2"), self.parts),
            series("refused", Look::Crosses("#d55e00"), vec![self.refused]),
        ];
        all.retain(|s| s.parts.iter().any(|p| !p.is_empty()));
        Chart {
            title,
            note: format!("{pairs} pairs of epochs, {refused} refused{off}"),
            series: all,
        }
    }
}

/// Draws a file's drive; true where no pair is refused.
pub fn run(words: &[String]) -> Run<bool> {
    let valued = [&VALUED[..], &["-o"]].concat();
    let args = Args::parse(words, &valued, &["--ignore-unknown"])?;
    let (source, picture) = (args.source()?, args.needed("-o")?);
    let mut pairs = Pairs::open(source, &args)?;
    let mut drive: Option<Drive> = None;
    while let Some(pair) = pairs.next()? {
        let drive = drive.get_or_insert_with(|| Drive::new(pair.at));
        drive.add(&pair);
        if drive.pairs > MOST {
            let name = pairs.name();
            return said(format!("{name}: has more than {MOST} pairs of epochs"));
        }
    }
    let name = pairs.name();
    let Some(drive) = drive else {
        return said(format!("{name}: has no pair of epochs"));
    };
    let (tally, all) = (drive.tally.clone(), drive.pairs as u64);
    let file = Path::new(name).file_name().unwrap_or_default();
    let title = format!("Path of {}", file.to_string_lossy());
    let Some(text) = drive.chart(title).draw() else {
        return said(format!("{name}: the path is longer than a picture holds"));
    };
    let mut out = Output::open(Some(picture))?;
    out.line(text.trim_end())?;
    out.close()?;
    sum_up(&tally, all);
    Ok(tally.total() == 0)
}
