//! The best ring that drops its oldest values, on atomic words in safe Rust.

use crate::orders::Orders;
use crate::padded::Padded;
use crate::polled::Polled;
use std::marker::PhantomData;
use std::sync::atomic::AtomicU64;
use std::sync::Arc;

/// A ring that overwrites: each cell has its value's number beside it, at which a reader looks twice. The emitter reads
/// nothing that readers write.
pub struct LossyRing<O> {
    cells: Box<[[AtomicU64; 2]]>,
    mask: u64,
    tail: Padded,
    orders: PhantomData<O>,
}

/// An end of it, and where it stands.
pub struct LossyEnd<O>(Arc<LossyRing<O>>, u64);

impl<O: Orders> Polled for LossyRing<O> {
    type Emitter = LossyEnd<O>;
    type Reader = LossyEnd<O>;

    const NAME: &'static str = O::LOSSY;

    fn open(capacity: usize, readers: usize) -> (LossyEnd<O>, Vec<LossyEnd<O>>) {
        let cell = |_| [AtomicU64::new(0), AtomicU64::new(0)];
        let ring = Arc::new(LossyRing {
            cells: (0..capacity).map(cell).collect(),
            mask: capacity as u64 - 1,
            tail: Padded::zero(),
            orders: PhantomData,
        });
        let all = (0..readers).map(|_| LossyEnd(ring.clone(), 0)).collect();
        (LossyEnd(ring, 0), all)
    }

    #[inline]
    fn try_emit(LossyEnd(ring, tail): &mut LossyEnd<O>, value: u64) -> bool {
        let [number, held] = &ring.cells[(*tail & ring.mask) as usize];
        number.store(2 * *tail + 1, O::INNER_STORE);
        held.swap(value, O::SWAP);
        number.store(2 * *tail + 2, O::STORE);
        *tail += 1;
        ring.tail.0.store(*tail, O::STORE);
        true
    }

    #[inline]
    fn try_next(LossyEnd(ring, cursor): &mut LossyEnd<O>) -> Option<u64> {
        loop {
            let [number, held] = &ring.cells[(*cursor & ring.mask) as usize];
            let seen = number.load(O::LOAD);
            if seen < 2 * *cursor + 2 {
                return None;
            }
            if seen == 2 * *cursor + 2 {
                let value = held.load(O::LOAD);
                if number.load(O::LOAD) == seen {
                    *cursor += 1;
                    return Some(value);
                }
            }
            let tail = ring.tail.0.load(O::LOAD);
            *cursor = (*cursor + 1).max(tail.saturating_sub(ring.mask));
        }
    }
}
