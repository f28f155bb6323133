//! Peers whose calls wait, each as its library waits.

use crate::race::Job;

/// A shared flow, or a buffer where there is one reader.
pub trait Blocked {
    type Emitter: Send + 'static;
    type Reader: Send + 'static;

    const NAME: &'static str;

    fn open(capacity: usize, readers: usize) -> (Self::Emitter, Vec<Self::Reader>);

    /// Emits the numbers below `count`.
    fn emit_all(emitter: Self::Emitter, count: u64);

    /// The sum of the `count` values that come.
    fn sum_of(reader: Self::Reader, count: u64) -> u64;
}

/// A thread that emits, then one for each reader, which gives the sum of what it took.
pub fn jobs<F: Blocked>(capacity: usize, readers: usize, count: u64) -> Vec<Job> {
    let (emitter, readers) = F::open(capacity, readers);
    let mut jobs: Vec<Job> = vec![Box::new(move || {
        F::emit_all(emitter, count);
        0
    })];
    for reader in readers {
        jobs.push(Box::new(move || F::sum_of(reader, count)));
    }
    jobs
}
