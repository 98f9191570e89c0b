//! Comparisons in parts, on as many threads as the machine runs at once.

use std::sync::atomic::{AtomicU64, Ordering};
use std::thread;

/// Makes each of the parts 0, 1 and so on below `count`, and adds up what they give.
pub fn in_parts<T: Default + Send>(
    count: u64,
    make: impl Fn(u64) -> T + Sync,
    add: impl Fn(&mut T, T) + Sync,
) -> T {
    let next = AtomicU64::new(0);
    let some_parts = || {
        let mut sum = T::default();
        loop {
            let part = next.fetch_add(1, Ordering::Relaxed);
            if part >= count {
                return sum;
            }
            add(&mut sum, make(part));
        }
    };
    let mut sum = T::default();
    thread::scope(|scope| {
        let threads = thread::available_parallelism().map_or(1, |threads| threads.get());
        let started: Vec<_> = (0..threads).map(|_| scope.spawn(some_parts)).collect();
        for thread in started {
            add(&mut sum, thread.join().expect("each part compares equal"));
        }
    });
    sum
}
