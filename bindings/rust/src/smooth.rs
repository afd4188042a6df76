//! Fixed-interval trajectory smoothing by banded least squares.

use alloc::vec;
use alloc::vec::Vec;

use crate::refusal::answered;
use crate::{sys, Refusal, Vec3, EPOCHS};

/// How hard to work at rejecting measurements that do not fit.
#[derive(Clone, Copy, Debug, PartialEq)]
pub struct Settings {
    /// Huber threshold, in sigmas.
    pub huber: f64,
    /// Reweighting passes, at most 50. One is an ordinary least-squares fit, and so is none.
    pub iterations: usize,
}

impl Default for Settings {
    fn default() -> Self {
        Self {
            huber: 2.0,
            iterations: 6,
        }
    }
}

/// A measurement of where the trajectory was at one epoch.
#[derive(Clone, Copy, Debug, PartialEq)]
pub struct Anchor {
    /// Epoch index.
    pub index: usize,
    /// Measured position.
    pub position: Vec3,
    /// One-sigma, per axis, above 0.
    pub sigma: Vec3,
}

/// A measurement of how far the trajectory moved between two adjacent epochs.
#[derive(Clone, Copy, Debug, PartialEq)]
pub struct Link {
    /// Epoch index this link starts at; it ends at `index + 1`.
    pub index: usize,
    /// Measured change in position.
    pub delta: Vec3,
    /// One-sigma, per axis, above 0.
    pub sigma: Vec3,
}

/// Columns of anchors or links; more than 1,024 are refused by their count.
struct Columns {
    index: Vec<usize>,
    value: Vec<f64>,
    sigma: Vec<f64>,
}

impl Columns {
    fn of<M>(measured: &[M], parts: impl Fn(&M) -> (usize, Vec3, Vec3)) -> Self {
        let mut out = Self {
            index: Vec::new(),
            value: Vec::new(),
            sigma: Vec::new(),
        };
        for m in measured.iter().take(EPOCHS) {
            let (index, value, sigma) = parts(m);
            out.index.push(index);
            out.value.extend([value.x, value.y, value.z]);
            out.sigma.extend([sigma.x, sigma.y, sigma.z]);
        }
        out
    }
}

/// Returns one position for each of n epochs.
///
/// Anchors and links may be given in any order, and an epoch may carry several of either.
///
/// ```
/// use zaqnuti::smooth::{smooth, Anchor, Link, Settings};
/// use zaqnuti::{Refusal, Vec3};
///
/// // Fixes 10 m apart with 3 m of error now and then; carrier displacements of 10 m.
/// let fixes = [0.0, 10.0, 23.0, 30.0, 40.0, 47.0, 60.0];
/// let anchors: Vec<Anchor> = fixes.iter().enumerate().map(|(index, &x)| Anchor {
///     index,
///     position: Vec3::new(x, 0.0, 0.0),
///     sigma: Vec3::new(3.0, 3.0, 3.0),
/// }).collect();
/// let links: Vec<Link> = (0..6).map(|index| Link {
///     index,
///     delta: Vec3::new(10.0, 0.0, 0.0),
///     sigma: Vec3::new(0.02, 0.02, 0.02),
/// }).collect();
/// let track = smooth(7, &anchors, &links, &Settings::default())?;
/// for (i, point) in track.iter().enumerate() {
///     assert!((point.x - 10.0 * i as f64).abs() < 0.01);
/// }
/// # Ok::<(), Refusal>(())
/// ```
pub fn smooth(
    n: usize,
    anchors: &[Anchor],
    links: &[Link],
    set: &Settings,
) -> Result<Vec<Vec3>, Refusal> {
    let a = Columns::of(anchors, |a| (a.index, a.position, a.sigma));
    let l = Columns::of(links, |l| (l.index, l.delta, l.sigma));
    let epochs = n.min(EPOCHS);
    let mut result = vec![0.0; 3 * epochs];
    let mut work = vec![0.0; 9 * epochs + a.index.len() + l.index.len()];
    // SAFETY: each column has its length beside it, and the last two are ours alone.
    let number = unsafe {
        sys::zaqnuti_smooth(
            n,
            anchors.len(),
            links.len(),
            a.index.as_ptr(),
            a.index.len(),
            a.value.as_ptr(),
            a.value.len(),
            a.sigma.as_ptr(),
            a.sigma.len(),
            l.index.as_ptr(),
            l.index.len(),
            l.value.as_ptr(),
            l.value.len(),
            l.sigma.as_ptr(),
            l.sigma.len(),
            set.huber,
            set.iterations,
            result.as_mut_ptr(),
            result.len(),
            work.as_mut_ptr(),
            work.len(),
        )
    };
    answered(number)?;
    let points = result.chunks_exact(3);
    Ok(points.map(|p| Vec3::new(p[0], p[1], p[2])).collect())
}
