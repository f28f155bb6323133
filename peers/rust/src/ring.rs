//! The best ring that one can do on atomic words in safe Rust: no subscription, no policy, no proof.

use crate::orders::Orders;
use crate::padded::Padded;
use crate::polled::Polled;
use std::marker::PhantomData;
use std::sync::atomic::AtomicU64;
use std::sync::Arc;

/// A ring that loses nothing. Cursors are stored and not exchanged, and each side keeps what it last saw of the other.
pub struct Ring<O> {
    cells: Box<[AtomicU64]>,
    mask: u64,
    tail: Padded,
    cursors: Vec<Padded>,
    orders: PhantomData<O>,
}

pub struct RingEmitter<O> {
    ring: Arc<Ring<O>>,
    tail: u64,
    /// The least cursor that was seen.
    least: u64,
}

pub struct RingReader<O> {
    ring: Arc<Ring<O>>,
    which: usize,
    cursor: u64,
    /// The tail that was seen.
    tail: u64,
}

impl<O: Orders> Polled for Ring<O> {
    type Emitter = RingEmitter<O>;
    type Reader = RingReader<O>;

    const NAME: &'static str = O::RING;

    fn open(capacity: usize, readers: usize) -> (RingEmitter<O>, Vec<RingReader<O>>) {
        let ring = Arc::new(Ring {
            cells: (0..capacity).map(|_| AtomicU64::new(0)).collect(),
            mask: capacity as u64 - 1,
            tail: Padded::zero(),
            cursors: Padded::zeros(readers),
            orders: PhantomData,
        });
        let reader = |which| RingReader {
            ring: ring.clone(),
            which,
            cursor: 0,
            tail: 0,
        };
        let all = (0..readers).map(reader).collect();
        let emitter = RingEmitter {
            ring,
            tail: 0,
            least: 0,
        };
        (emitter, all)
    }

    #[inline]
    fn try_emit(emitter: &mut RingEmitter<O>, value: u64) -> bool {
        let RingEmitter { ring, tail, least } = emitter;
        if *tail - *least > ring.mask {
            let cursors = ring.cursors.iter().map(|cursor| cursor.0.load(O::LOAD));
            *least = cursors.min().unwrap();
            if *tail - *least > ring.mask {
                return false;
            }
        }
        ring.cells[(*tail & ring.mask) as usize].store(value, O::INNER_STORE);
        *tail += 1;
        ring.tail.0.store(*tail, O::STORE);
        true
    }

    #[inline]
    fn try_next(reader: &mut RingReader<O>) -> Option<u64> {
        let ring = &*reader.ring;
        if reader.cursor == reader.tail {
            reader.tail = ring.tail.0.load(O::LOAD);
            if reader.cursor == reader.tail {
                return None;
            }
        }
        let value = ring.cells[(reader.cursor & ring.mask) as usize].load(O::INNER_LOAD);
        reader.cursor += 1;
        ring.cursors[reader.which].0.store(reader.cursor, O::STORE);
        Some(value)
    }
}
