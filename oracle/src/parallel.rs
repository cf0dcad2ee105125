//! Work shared out among the processors.

use std::sync::atomic::{AtomicUsize, Ordering};
use std::thread;

/// How many a worker takes at a time.
const SHARE: usize = 64;

/// The result for each, in their order.
pub fn each<T: Sync, R: Send>(of: &[T], result: impl Fn(&T) -> R + Sync) -> Vec<R> {
    let next = AtomicUsize::new(0);
    let work = || {
        let mut done: Vec<(usize, Vec<R>)> = Vec::new();
        loop {
            let from = next.fetch_add(SHARE, Ordering::Relaxed);
            if from >= of.len() {
                return done;
            }
            done.push((from, of[from..of.len().min(from + SHARE)].iter().map(&result).collect()));
        }
    };
    let mut shares: Vec<(usize, Vec<R>)> = thread::scope(|scope| {
        let workers: Vec<_> = (0..thread::available_parallelism().map_or(1, usize::from)).map(|_| scope.spawn(work)).collect();
        workers.into_iter().flat_map(|worker| worker.join().expect("a worker that ended well")).collect()
    });
    shares.sort_by_key(|(from, _)| *from);
    shares.into_iter().flat_map(|(_, results)| results).collect()
}
