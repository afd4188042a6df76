//! The track.

use super::{count, sys, turn_length};
use crate::fuzz::lent::Lender;
use crate::fuzz::Bytes;
use crate::services::track;

fn measured(b: &mut Bytes, n: usize, most: usize) -> track::Columns {
    let k = b.below(most);
    let mut out = track::Columns {
        count: count(b, k),
        ..track::Columns::default()
    };
    for _ in 0..k {
        out.index.push(match b.byte() {
            0..=249 => b.below(n.clamp(1, 2000)),
            250 => n,
            251 => usize::MAX,
            _ => b.u64() as usize,
        });
        out.value.extend(b.three());
        let sigma = if b.byte() < 200 {
            [0.5 + f64::from(b.byte()); 3]
        } else {
            b.three()
        };
        out.sigma.extend(sigma);
    }
    turn_length(b, &mut out.index);
    turn_length(b, &mut out.value);
    turn_length(b, &mut out.sigma);
    out
}

pub fn smooth(b: &mut Bytes) {
    b.plain_above(40);
    let n = match b.byte() {
        0..=239 => b.below(12),
        240..=249 => b.below(1027),
        _ => b.count(1024),
    };
    let input = track::Input {
        n,
        anchors: measured(b, n, 12),
        links: measured(b, n.saturating_sub(1), 20),
        huber: b.float(),
        iterations: b.count(50),
    };
    // So that most tracks are determined, links may join all epochs.
    let mut input = input;
    if b.flag() && (2..200).contains(&n) {
        for i in 0..n - 1 {
            input.links.index.push(i);
            input.links.value.extend([1.0, 0.0, f64::from(b.byte())]);
            input.links.sigma.extend([1.0, 2.0, 0.25]);
        }
        input.links.count = input.links.count.saturating_add(n - 1);
    }
    let need = n
        .saturating_mul(9)
        .saturating_add(input.anchors.count)
        .saturating_add(input.links.count);
    let room = |b: &mut Bytes, need: usize| match b.byte() {
        250..=255 => b.below(need.min(16_000) + 1),
        k => need.min(16_000) + usize::from(k & 3),
    };
    let (r, w) = (room(b, n.saturating_mul(3)), room(b, need));
    let expected = track::reference(&input, r, w);
    let mut lender = Lender::new();
    let odd: Vec<f64> = (0..w.max(r))
        .map(|i| f64::from_bits(0x7FF0_0000_0000_1234 + i as u64))
        .collect();
    let (a, l) = (&input.anchors, &input.links);
    let (ai, av, ag) = (
        lender.lend(&a.index),
        lender.lend(&a.value),
        lender.lend(&a.sigma),
    );
    let (li, lv, lg) = (
        lender.lend(&l.index),
        lender.lend(&l.value),
        lender.lend(&l.sigma),
    );
    let (result, work) = (lender.lend(&odd[..r]), lender.lend(&odd[..w]));
    // SAFETY: each pointer leads to what its length or its type says.
    let number = unsafe {
        sys::zaqnuti_smooth(
            n,
            a.count,
            l.count,
            ai.at(),
            ai.len(),
            av.at(),
            av.len(),
            ag.at(),
            ag.len(),
            li.at(),
            li.len(),
            lv.at(),
            lv.len(),
            lg.at(),
            lg.len(),
            input.huber,
            input.iterations,
            result.at(),
            result.len(),
            work.at(),
            work.len(),
        )
    };
    ai.kept();
    av.kept();
    ag.kept();
    li.kept();
    lv.kept();
    lg.kept();
    match &expected {
        Ok(points) => {
            assert_eq!(number, 0);
            let mut after: Vec<f64> = points.iter().flat_map(|p| [p.x, p.y, p.z]).collect();
            assert!(after.iter().all(|x| x.is_finite()));
            after.extend(&odd[3 * n..r]);
            result.holds(&after);
        }
        Err(why) => {
            assert_eq!(number, *why);
            result.kept();
        }
    }
    match expected {
        Err(2..=6) => work.kept(),
        _ => {
            let mut after = vec![0.0; need];
            after.extend(&odd[need..w]);
            work.holds(&after);
        }
    }
}
