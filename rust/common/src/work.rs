//! Work in parts, on every core.

use std::sync::atomic::{AtomicUsize, Ordering};
use std::thread::{available_parallelism, scope};

/// Each thread makes its own state and takes the next part as long as there is one. Gives back what the states became.
pub fn in_parts<S: Send>(parts: usize, make: impl Fn() -> S + Sync, part: impl Fn(&mut S, usize) + Sync) -> Vec<S> {
    let next = AtomicUsize::new(0);
    let work = || {
        let mut state = make();
        loop {
            let k = next.fetch_add(1, Ordering::Relaxed);
            if k >= parts {
                return state;
            }
            part(&mut state, k);
        }
    };
    scope(|s| {
        let threads: Vec<_> = (0..available_parallelism().map_or(1, usize::from)).map(|_| s.spawn(work)).collect();
        threads.into_iter().map(|t| t.join().expect("a thread")).collect()
    })
}
