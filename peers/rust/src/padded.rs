//! Words that lie apart.

use std::sync::atomic::AtomicU64;

/// A word with a pair of cache lines of its own.
#[repr(align(128))]
pub struct Padded(pub AtomicU64);

impl Padded {
    pub fn zero() -> Padded {
        Padded(AtomicU64::new(0))
    }

    pub fn zeros(count: usize) -> Vec<Padded> {
        (0..count).map(|_| Padded::zero()).collect()
    }
}
