//! Threads with the usual stack of 8 MiB, in which both checks run.

use std::panic::resume_unwind;
use std::thread::{scope, Builder};

pub const STACK_BYTES: usize = 8 << 20;
/// The threads that a comparison is shared out over.
const THREADS: u64 = 2;

/// What a thread counts of its share of a comparison.
pub trait Counts: Default + Send {
    fn add(&mut self, other: Self);

    /// Were as many faults found as are shown?
    fn too_many(&self) -> bool;
}

/// Shares the numbers below `count` out over the threads, each with tools of its own, up to the first few faults.
pub fn share_out<C: Counts, T>(
    count: u64,
    tools: impl Fn() -> T + Sync,
    try_one: impl Fn(&mut C, &T, u64) + Sync,
) -> C {
    let parts = in_threads(THREADS, |thread| {
        let tools = tools();
        let mut part = C::default();
        let mut number = thread;
        while number < count && !part.too_many() {
            try_one(&mut part, &tools, number);
            number += THREADS;
        }
        part
    });
    let mut sum = C::default();
    parts.into_iter().for_each(|part| sum.add(part));
    sum
}

/// Runs the work once in each thread, given the thread's number.
pub fn in_threads<T: Send>(count: u64, work: impl Fn(u64) -> T + Sync) -> Vec<T> {
    let work = &work;
    scope(|s| {
        let start = |number| {
            Builder::new()
                .stack_size(STACK_BYTES)
                .spawn_scoped(s, move || work(number))
                .expect("a thread starts")
        };
        let running: Vec<_> = (0..count).map(start).collect();
        running
            .into_iter()
            .map(|thread| thread.join().unwrap_or_else(|fault| resume_unwind(fault)))
            .collect()
    })
}

/// Runs the work in one such thread.
pub fn in_thread<T: Send>(work: impl Fn() -> T + Sync) -> T {
    in_threads(1, |_| work()).remove(0)
}
