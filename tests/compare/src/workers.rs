//! Two threads that share the work.

use std::sync::atomic::{AtomicU64, Ordering};
use std::thread;

/// How many threads there are.
const WORKERS: usize = 2;

/// Does the work for each number below the count, and gives the results in
/// the order of the numbers.
pub fn share<T: Send>(count: u64, work: impl Fn(u64) -> T + Sync) -> Vec<T> {
    let next = AtomicU64::new(0);
    let one_worker = || {
        let numbers = std::iter::repeat_with(|| next.fetch_add(1, Ordering::Relaxed));
        numbers
            .take_while(|number| *number < count)
            .map(|number| (number, work(number)))
            .collect::<Vec<_>>()
    };
    let mut results: Vec<(u64, T)> = thread::scope(|scope| {
        let workers = [(); WORKERS].map(|()| scope.spawn(one_worker));
        workers
            .into_iter()
            .flat_map(|worker| worker.join().expect("a worker does not panic"))
            .collect()
    });
    results.sort_by_key(|(number, _)| *number);
    results.into_iter().map(|(_, result)| result).collect()
}
