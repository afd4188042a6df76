//! Pseudoranges that contradict the position of the others, by least squares.

use super::lock::median;
use super::place::Sight;

/// The most unknowns: a position and a clock for each system.
const MOST: usize = 7;
/// The least size of a contradiction, m, and how many sigmas of the others it has.
const LEAST: f64 = 12.0;
const SIGMAS: f64 = 10.0;
/// The least share of a pseudorange that is not taken up by the unknowns.
const FREE: f64 = 0.1;

/// A row of the equations, and its right side.
type Row = ([f64; MOST], f64);

/// Returns the rows of an epoch, and the number of unknowns.
fn rows(sights: &[Sight]) -> (Vec<Row>, usize) {
    let mut clocks = [None; 4];
    let (mut rows, mut count) = (Vec::with_capacity(sights.len()), 3);
    let mut misses: Vec<f64> = sights.iter().map(Sight::miss).collect();
    let middle = if misses.is_empty() {
        0.0
    } else {
        median(&mut misses)
    };
    for sight in sights {
        let clock = *clocks[sight.band.system as usize].get_or_insert_with(|| {
            count += 1;
            count - 1
        });
        let (sin, cos) = sight.to.elevation.sin_cos();
        let (east, north) = sight.to.azimuth.sin_cos();
        // Low satellites are noisier.
        let weight = 1.0 / sight.noisier();
        let mut row = [0.0; MOST];
        row[..3].copy_from_slice(&[-cos * east, -cos * north, -sin].map(|x| x * weight));
        row[clock] = weight;
        rows.push((row, (sight.miss() - middle) * weight));
    }
    (rows, count)
}

/// Makes a symmetric matrix triangular (Cholesky); false where it is singular.
fn triangular(a: &mut [[f64; MOST]; MOST], n: usize) -> bool {
    for i in 0..n {
        for j in 0..=i {
            let sum: f64 = (0..j).map(|k| a[i][k] * a[j][k]).sum();
            let rest = a[i][j] - sum;
            if i == j && rest < 1e-9 {
                return false;
            }
            a[i][j] = if i == j { rest.sqrt() } else { rest / a[j][j] };
        }
    }
    true
}

/// Solves a triangular system.
fn forward(a: &[[f64; MOST]; MOST], n: usize, mut b: [f64; MOST]) -> [f64; MOST] {
    for i in 0..n {
        let sum: f64 = (0..i).map(|k| a[i][k] * b[k]).sum();
        b[i] = (b[i] - sum) / a[i][i];
    }
    b
}

fn dot(a: &[f64; MOST], b: &[f64; MOST]) -> f64 {
    a.iter().zip(b).map(|(x, y)| x * y).sum()
}

/// Checks whether all residuals are small, as in most epochs.
fn calm(sights: &[Sight]) -> bool {
    let mut clocks = [(0.0, 0.0); 4];
    for sight in sights {
        let (sum, count) = &mut clocks[sight.band.system as usize];
        (*sum, *count) = (*sum + sight.miss(), *count + 1.0);
    }
    sights.iter().all(|s| {
        let (sum, count) = clocks[s.band.system as usize];
        (s.miss() - sum / count).abs() < LEAST / 4.0
    })
}

/// Returns the index of the pseudorange that contradicts the others most, if one does clearly.
pub fn worst(sights: &[Sight]) -> Option<usize> {
    if calm(sights) {
        return None;
    }
    let (rows, n) = rows(sights);
    // Without it there must be two more rows than unknowns.
    let spare = rows.len().checked_sub(n + 3)? + 2;
    let (mut normal, mut right) = ([[0.0; MOST]; MOST], [0.0; MOST]);
    for (row, miss) in &rows {
        for i in 0..n {
            (0..=i).for_each(|j| normal[i][j] += row[i] * row[j]);
            right[i] += row[i] * miss;
        }
    }
    if !triangular(&mut normal, n) {
        return None;
    }
    let solved = forward(&normal, n, right);
    let total: f64 = rows.iter().map(|(_, m)| m * m).sum::<f64>() - dot(&solved, &solved);
    let mut best = None;
    for (i, (row, miss)) in rows.iter().enumerate() {
        let along = forward(&normal, n, *row);
        let free = 1.0 - dot(&along, &along);
        if free < FREE {
            continue;
        }
        let residual = miss - dot(&along, &solved);
        let taken = residual * residual / free;
        if best.map_or(true, |(most, _, _)| taken > most) {
            let weight = row[3..].iter().sum::<f64>();
            best = Some((taken, i, (residual / free / weight).abs()));
        }
    }
    let (taken, index, size) = best?;
    let sigma = ((total - taken).max(0.0) / spare as f64).sqrt();
    // With few spare rows the others agree by chance.
    let sigmas = SIGMAS * (1.0 + 4.0 / spare as f64);
    (size > LEAST && taken.sqrt() > sigmas * sigma).then_some(index)
}

#[cfg(test)]
mod tests {
    use super::super::place::tests::sights;
    use super::*;

    #[test]
    fn a_pseudorange_that_contradicts_the_others_is_found() {
        for i in 0..9 {
            let mut all = sights(9);
            assert_eq!(worst(&all), None);
            all[i].signal.pseudorange += 40.0;
            assert_eq!(worst(&all), Some(i), "{i}");
            all[i].signal.pseudorange -= 35.0;
            assert_eq!(worst(&all), None);
        }
        // All alike are the receiver's clock.
        let mut all = sights(9);
        all.iter_mut().for_each(|s| s.signal.pseudorange += 4e5);
        assert_eq!(worst(&all), None);
    }

    #[test]
    fn few_can_not_outvote_one() {
        let mut all = sights(6);
        all[2].signal.pseudorange += 1e3;
        assert_eq!(worst(&all), None);
        assert_eq!(worst(&[]), None);
    }
}
