//! Peers whose calls don't wait, and the threads that poll them.

use crate::pause::Pause;
use crate::race::Job;

/// A shared flow: one emitter, and readers that each take every value.
pub trait Polled {
    type Emitter: Send + 'static;
    type Reader: Send + 'static;

    const NAME: &'static str;

    fn open(capacity: usize, readers: usize) -> (Self::Emitter, Vec<Self::Reader>);

    /// Whether the value was accepted. Where it wasn't there is no room, and the same value is tried again.
    fn try_emit(emitter: &mut Self::Emitter, value: u64) -> bool;

    /// The next value, where there is one.
    fn try_next(reader: &mut Self::Reader) -> Option<u64>;
}

/// A thread that emits the numbers below `count`, then one for each reader, which takes them and gives their sum.
pub fn jobs<F: Polled>(capacity: usize, readers: usize, count: u64) -> Vec<Job> {
    let (mut emitter, readers) = F::open(capacity, readers);
    let mut jobs: Vec<Job> = vec![Box::new(move || {
        emit_all::<F>(&mut emitter, capacity, count);
        0
    })];
    for mut reader in readers {
        jobs.push(Box::new(move || sum_of::<F>(&mut reader, capacity, count)));
    }
    jobs
}

/// Emits the numbers below `count`.
pub fn emit_all<F: Polled>(emitter: &mut F::Emitter, capacity: usize, count: u64) {
    let mut pause = Pause::new(capacity);
    let mut next = 0;
    while next < count {
        if F::try_emit(emitter, next) {
            next += 1;
            pause.reset();
        } else {
            pause.wait();
        }
    }
}

fn sum_of<F: Polled>(reader: &mut F::Reader, capacity: usize, count: u64) -> u64 {
    let mut pause = Pause::new(capacity);
    let (mut taken, mut sum) = (0, 0u64);
    while taken < count {
        if let Some(value) = F::try_next(reader) {
            sum = sum.wrapping_add(value);
            taken += 1;
            pause.reset();
        } else {
            pause.wait();
        }
    }
    sum
}
