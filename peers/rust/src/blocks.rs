//! Peers with calls for many values, and the threads that poll them.

use crate::pause::Pause;
use crate::polled::Polled;
use crate::race::Job;

/// A shared flow that also emits by the block, and whose readers also take so.
pub trait Blocks: Polled {
    /// Emits these values, from the first on, and says how many were accepted.
    fn try_emit_all(emitter: &mut Self::Emitter, values: &[u64]) -> usize;

    /// Takes what is there, `most` values at most, and adds it to `values`.
    fn try_next_all(reader: &mut Self::Reader, values: &mut Vec<u64>, most: usize);
}

/// A thread that emits the numbers below `count`, `block` of them by a call, then one for each reader, which takes as
/// many by a call and gives their sum.
pub fn jobs<F: Blocks>(capacity: usize, readers: usize, count: u64, block: usize) -> Vec<Job> {
    let (mut emitter, readers) = F::open(capacity, readers);
    let mut jobs: Vec<Job> = vec![Box::new(move || {
        emit_all::<F>(&mut emitter, capacity, count, block);
        0
    })];
    for mut reader in readers {
        jobs.push(Box::new(move || {
            sum_of::<F>(&mut reader, capacity, count, block)
        }));
    }
    jobs
}

/// Emits the numbers below `count`, `block` of them by a call.
pub fn emit_all<F: Blocks>(emitter: &mut F::Emitter, capacity: usize, count: u64, block: usize) {
    let mut pause = Pause::new(capacity);
    let mut values = vec![0; block];
    let mut next = 0;
    while next < count {
        let left = (count - next).min(block as u64) as usize;
        count_from(next, &mut values[..left]);
        let accepted = F::try_emit_all(emitter, &values[..left]);
        if accepted > 0 {
            next += accepted as u64;
            pause.reset();
        } else {
            pause.wait();
        }
    }
}

fn sum_of<F: Blocks>(reader: &mut F::Reader, capacity: usize, count: u64, block: usize) -> u64 {
    let mut pause = Pause::new(capacity);
    let mut values = Vec::with_capacity(block);
    let (mut taken, mut sum) = (0, 0u64);
    while taken < count {
        values.clear();
        F::try_next_all(reader, &mut values, block);
        if values.is_empty() {
            pause.wait();
        } else {
            sum = sum.wrapping_add(sum_of_values(&values));
            taken += values.len() as u64;
            pause.reset();
        }
    }
    sum
}

/// Writes the numbers from this one up.
#[inline]
pub fn count_from(first: u64, values: &mut [u64]) {
    for (value, number) in values.iter_mut().zip(first..) {
        *value = number;
    }
}

#[inline]
pub fn sum_of_values(values: &[u64]) -> u64 {
    values.iter().copied().fold(0, u64::wrapping_add)
}
