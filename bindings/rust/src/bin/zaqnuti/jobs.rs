//! Work on several files side by side, with results in their order.

use std::collections::BTreeMap;
use std::sync::atomic::{AtomicUsize, Ordering};
use std::sync::{mpsc, Arc};
use std::thread;

use crate::fault::{said, Run};

/// Works on each number below `count`, `jobs` of them at a time, and hands the results over in order.
///
/// One job works in the caller's own thread. Where a result is not taken, the others are left.
pub fn in_order<T: Send + 'static>(
    count: usize,
    jobs: usize,
    work: impl Fn(usize) -> T + Send + Sync + 'static,
    mut take: impl FnMut(T) -> Run<()>,
) -> Run<()> {
    if jobs.min(count) <= 1 {
        return (0..count).try_for_each(|i| take(work(i)));
    }
    let (send, receive) = mpsc::channel();
    let (next, work) = (Arc::new(AtomicUsize::new(0)), Arc::new(work));
    for _ in 0..jobs.min(count) {
        let (send, next, work) = (send.clone(), next.clone(), work.clone());
        thread::spawn(move || loop {
            let i = next.fetch_add(1, Ordering::Relaxed);
            if i >= count || send.send((i, work(i))).is_err() {
                break;
            }
        });
    }
    drop(send);
    let mut early = BTreeMap::new();
    for wanted in 0..count {
        let result = loop {
            if let Some(result) = early.remove(&wanted) {
                break result;
            }
            match receive.recv() {
                Ok((i, result)) => early.insert(i, result),
                Err(_) => return said("a job has ended without its result"),
            };
        };
        take(result)?;
    }
    Ok(())
}
