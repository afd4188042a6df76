//! Pseudoranges against carriers, from one written epoch to the next.

use super::lock::{median, Held};
use super::place::Sight;
use super::signals::Satellite;

/// The least and the greatest limit of a jump at the zenith, m, and how many robust sigmas it has.
const LIMIT: (f64, f64) = (0.6, 15.0);
const SIGMAS: f64 = 8.0;
/// The same of a jump that goes back at once, in mean sizes of the satellite's own.
const BACK: (f64, f64) = (0.15, 6.2);
/// The least number of epochs from which a mean size is known, and the most that count.
const EPOCHS: (u32, u32) = (16, 64);
/// The part of a jump that the pseudorange's residual must have if the pseudorange is at fault.
const PART: f64 = 0.3;
/// The least number of signals whose jumps can be compared.
const LEAST: usize = 4;

/// How far a signal's pseudoranges usually jump for one epoch.
#[derive(Clone, Copy, Default)]
struct Usual {
    mean: f64,
    count: u32,
}

impl Usual {
    /// Adds the size of a jump that goes back at once. Returns whether it is far above the usual,
    /// or above `noise` as long as the usual is not known.
    fn exceeds(&mut self, size: f64, noise: f64) -> bool {
        let known = self.count >= EPOCHS.0;
        let usual = if known { self.mean } else { noise };
        let limit = (BACK.1 * usual).max(BACK.0);
        self.count = (self.count + 1).min(EPOCHS.1);
        self.mean += (size.min(limit) - self.mean) / f64::from(self.count);
        size > limit
    }
}

/// A signal at the last epoch in which its pseudorange was accepted.
#[derive(Clone, Copy)]
struct Kept {
    /// Pseudorange minus carrier, and the pseudorange's residual, m.
    apart: f64,
    residual: f64,
    /// The last jump as it would be at the zenith, m, unless it was told.
    jump: Option<f64>,
    /// Epochs accepted since the carrier was locked, and those left out since.
    accepted: u32,
    out: u32,
}

/// What is wrong with a signal.
#[derive(Clone, Copy, Debug, PartialEq)]
pub enum Jump {
    /// Its pseudorange jumps: it is left out.
    Pseudorange,
    /// Its pseudorange or its carrier jumps, or did so in the epoch before.
    Either,
    /// Its pseudorange jumped a little in the epoch before, and is back.
    Back,
}

/// The signals of the last written epochs.
pub struct Codes {
    /// By satellite and band.
    kept: Vec<Option<Kept>>,
    usual: Vec<Usual>,
    bands: usize,
    /// The usual size of jumps at the zenith, m.
    noise: Option<f64>,
    /// Buffers for the jumps, their medians and the answers.
    jumps: Vec<Option<f64>>,
    sorted: Vec<f64>,
    found: Vec<Option<Jump>>,
}

impl Codes {
    /// Starts with no signals, for a number of bands.
    pub fn new(bands: usize) -> Self {
        Self {
            kept: vec![None; Satellite::PLACES * bands],
            usual: vec![Usual::default(); Satellite::PLACES * bands],
            bands,
            noise: None,
            jumps: Vec::new(),
            sorted: Vec::new(),
            found: Vec::new(),
        }
    }

    fn place(&self, sight: &Sight) -> usize {
        sight.signal.satellite.place() * self.bands + sight.signal.band
    }

    /// Compares the signals of an epoch with those before. Each has its sight, its carrier and
    /// its residual in m. The answers are in the same order.
    pub fn check(
        &mut self,
        sights: &[Sight],
        carriers: &[Option<Held>],
        residuals: &[f64],
    ) -> &[Option<Jump>] {
        self.measure(sights, carriers);
        let limit = self.limit();
        self.found.clear();
        for (i, sight) in sights.iter().enumerate() {
            let (place, jump) = (self.place(sight), self.jumps[i]);
            let found = match jump.filter(|j| j.abs() > limit) {
                Some(jump) => self.fault(place, jump * sight.noisier(), residuals[i]),
                None => self.back(place, jump).then_some(Jump::Back),
            };
            self.keep(place, sight, carriers[i], (residuals[i], jump), found);
            self.found.push(found);
        }
        &self.found
    }

    /// Computes how far each pseudorange moved from its carrier, beyond what they all moved, as it
    /// would be at the zenith.
    fn measure(&mut self, sights: &[Sight], carriers: &[Option<Held>]) {
        self.jumps.clear();
        self.sorted.clear();
        for (sight, carrier) in sights.iter().zip(carriers) {
            let before = self.kept[self.place(sight)];
            let locked = carrier.filter(|c| c.locked).zip(before);
            let moved = locked.map(|(c, b)| sight.signal.pseudorange - c.metres - b.apart);
            self.jumps.push(moved);
            self.sorted.extend(moved);
        }
        if self.sorted.len() < LEAST {
            self.jumps.fill(None);
            return;
        }
        // A step of the receiver's clock may move all pseudoranges alike.
        let middle = median(&mut self.sorted);
        for (jump, sight) in self.jumps.iter_mut().zip(sights) {
            *jump = jump.map(|j| (j - middle) / sight.noisier());
        }
    }

    /// Returns the limit at the zenith, from the jumps so far.
    fn limit(&mut self) -> f64 {
        self.sorted.clear();
        self.sorted
            .extend(self.jumps.iter().flatten().map(|j| j.abs()));
        if !self.sorted.is_empty() {
            let now = 1.4826 * median(&mut self.sorted);
            self.noise = Some(self.noise.map_or(now, |old| old + 0.1 * (now - old)));
        }
        let noise = self.noise.unwrap_or(LIMIT.1);
        (SIGMAS * noise).clamp(LIMIT.0, LIMIT.1)
    }

    /// Checks for a jump that undoes the one before: the pseudorange between them is out of line.
    fn back(&mut self, place: usize, jump: Option<f64>) -> bool {
        let before = self.kept[place].and_then(|k| k.jump);
        let between = jump.zip(before).map(|(now, before)| (now - before) / 2.0);
        let noise = self.noise.unwrap_or(LIMIT.1);
        between.is_some_and(|size| self.usual[place].exceeds(size.abs(), noise))
    }

    /// Tells a pseudorange that jumps from a carrier that does; nothing where a jump has lasted.
    fn fault(&self, place: usize, jump: f64, residual: f64) -> Option<Jump> {
        let before = self.kept[place]?;
        let own = (residual - before.residual) * jump.signum() > PART * jump.abs();
        match before.out {
            0 | 1 if own && before.accepted >= 2 => Some(Jump::Pseudorange),
            0 => Some(Jump::Either),
            _ => None,
        }
    }

    fn keep(
        &mut self,
        place: usize,
        sight: &Sight,
        carrier: Option<Held>,
        (residual, jump): (f64, Option<f64>),
        found: Option<Jump>,
    ) {
        let before = self.kept[place];
        self.kept[place] = match (found, carrier, before) {
            (Some(Jump::Pseudorange), _, Some(b)) => Some(Kept {
                out: b.out + 1,
                ..b
            }),
            (_, Some(carrier), _) => {
                let jumped = found == Some(Jump::Either);
                let lasting = before.filter(|b| !jumped && carrier.locked && b.out < 2);
                Some(Kept {
                    apart: sight.signal.pseudorange - carrier.metres,
                    residual,
                    jump: jump.filter(|_| found.is_none()),
                    accepted: lasting.map_or(1, |b| b.accepted + 1),
                    out: 0,
                })
            }
            _ => None,
        };
    }
}

#[cfg(test)]
mod tests {
    use super::super::place::tests::sights;
    use super::*;

    /// Runs over epochs of eight satellites whose pseudoranges have a noise of 0.1 m. `change` edits
    /// pseudoranges, carriers and residuals. Returns what is found, with its epoch and satellite.
    fn found(change: impl Fn(usize, &mut Sight, &mut f64, &mut f64)) -> Vec<(usize, usize, Jump)> {
        let mut codes = Codes::new(1);
        let mut out = Vec::new();
        for epoch in 0..20 {
            let mut all = sights(8);
            let (mut carriers, mut residuals) = (Vec::new(), Vec::new());
            for (i, sight) in all.iter_mut().enumerate() {
                // Some noise without a pattern.
                let noise = 0.1 * ((7 * i + 13 * epoch * epoch) as f64).sin();
                let (mut metres, mut residual) = (sight.signal.pseudorange, noise);
                sight.signal.pseudorange += noise;
                change(epoch, sight, &mut metres, &mut residual);
                let locked = epoch > 0;
                carriers.push(Some(Held { metres, locked }));
                residuals.push(residual);
            }
            let jumps = codes.check(&all, &carriers, &residuals);
            let told = jumps.iter().enumerate();
            out.extend(told.filter_map(|(i, jump)| Some((epoch, i, (*jump)?))));
        }
        out
    }

    /// Adds to the pseudorange of the fourth satellite in an epoch, and to its residual.
    fn spike(at: usize, metres: f64) -> impl Fn(usize, &mut Sight, &mut f64, &mut f64) {
        move |epoch, sight, _, residual| {
            if epoch == at && sight.signal.satellite.number == 4 {
                sight.signal.pseudorange += metres;
                *residual += 0.6 * metres;
            }
        }
    }

    #[test]
    fn a_pseudorange_that_jumps_is_left_out() {
        assert_eq!(found(|_, _, _, _| {}), []);
        assert_eq!(found(spike(9, 5.0)), [(9, 3, Jump::Pseudorange)]);
        assert_eq!(found(spike(19, -5.0)), [(19, 3, Jump::Pseudorange)]);
        // A smaller one is seen when it is back.
        assert_eq!(found(spike(9, 0.95)), [(10, 3, Jump::Back)]);
        // In the first epoch there is nothing to compare with.
        assert_eq!(found(spike(0, 5.0)), [(1, 3, Jump::Either)]);
    }

    #[test]
    fn a_carrier_that_jumps_is_told_once() {
        let slip = |epoch: usize, sight: &mut Sight, metres: &mut f64, _: &mut f64| {
            let own = epoch >= 9 && sight.signal.satellite.number == 4;
            *metres += if own { 5.0 } else { 0.0 };
        };
        assert_eq!(found(slip), [(9, 3, Jump::Either)]);
        // The receiver's clock moves all pseudoranges.
        let clock = |epoch: usize, sight: &mut Sight, _: &mut f64, _: &mut f64| {
            sight.signal.pseudorange += if epoch >= 9 { 3e5 } else { 0.0 };
        };
        assert_eq!(found(clock), []);
    }
}
