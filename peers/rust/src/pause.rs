//! How every peer that is polled waits.

use std::hint::spin_loop;
use std::thread::yield_now;

/// Spins twice as long each time, up to 64 turns, and then yields each time. With a capacity of 32 or more it begins
/// with 32 turns, so that the other side can run ahead and the two don't take turns at one cache line. crossbeam's
/// channel and Rattle's wait in this way.
pub struct Pause {
    first: u32,
    step: u32,
}

impl Pause {
    pub fn new(capacity: usize) -> Pause {
        let first = if capacity >= 32 { 5 } else { 0 };
        Pause { first, step: first }
    }

    #[inline]
    pub fn wait(&mut self) {
        if self.step > 6 {
            yield_now();
            return;
        }
        for _ in 0..1 << self.step {
            spin_loop();
        }
        self.step += 1;
    }

    #[inline]
    pub fn reset(&mut self) {
        self.step = self.first;
    }
}
