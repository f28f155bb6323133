//! The shared flow that one would write first: a queue, and each reader's place in it, under one lock.

use crate::blocked::Blocked;
use crate::blocks::Blocks;
use crate::polled::Polled;
use std::collections::VecDeque;
use std::sync::{Arc, Condvar, Mutex};

const NAME: &str = "mutex-queue";

struct Places {
    queue: VecDeque<u64>,
    /// The number of the queue's front.
    front: u64,
    /// The number of the value that each reader takes next.
    next: Vec<u64>,
    capacity: usize,
}

impl Places {
    fn is_full(&self) -> bool {
        self.queue.len() == self.capacity
    }

    fn drop_front(&mut self) {
        self.queue.pop_front();
        self.front += 1;
    }

    /// The next value of a reader, and whether it made room.
    fn take(&mut self, which: usize) -> Option<(u64, bool)> {
        let place = self.next[which].max(self.front);
        let value = *self.queue.get((place - self.front) as usize)?;
        self.next[which] = place + 1;
        let made_room = self.next.iter().all(|next| *next > self.front);
        if made_room {
            self.drop_front();
        }
        Some((value, made_room))
    }
}

struct Shared {
    places: Mutex<Places>,
    filled: Condvar,
    freed: Condvar,
}

/// The end that emits.
pub struct Emitter(Arc<Shared>);

/// An end that takes, and its index.
pub struct Reader(Arc<Shared>, usize);

fn open(capacity: usize, readers: usize) -> (Emitter, Vec<Reader>) {
    let shared = Arc::new(Shared {
        places: Mutex::new(Places {
            queue: VecDeque::with_capacity(capacity),
            front: 0,
            next: vec![0; readers],
            capacity,
        }),
        filled: Condvar::new(),
        freed: Condvar::new(),
    });
    let all = (0..readers).map(|which| Reader(shared.clone(), which));
    (Emitter(shared.clone()), all.collect())
}

fn try_next(reader: &Reader) -> Option<u64> {
    let taken = reader.0.places.lock().unwrap().take(reader.1);
    taken.map(|(value, _)| value)
}

/// Waits for room. One that is polled wakes nobody.
pub struct MutexQueue;

impl Polled for MutexQueue {
    type Emitter = Emitter;
    type Reader = Reader;

    const NAME: &'static str = NAME;

    fn open(capacity: usize, readers: usize) -> (Emitter, Vec<Reader>) {
        open(capacity, readers)
    }

    fn try_emit(emitter: &mut Emitter, value: u64) -> bool {
        let mut places = emitter.0.places.lock().unwrap();
        if places.is_full() {
            return false;
        }
        places.queue.push_back(value);
        true
    }

    fn try_next(reader: &mut Reader) -> Option<u64> {
        try_next(reader)
    }
}

/// Each block under the lock at once.
impl Blocks for MutexQueue {
    fn try_emit_all(emitter: &mut Emitter, values: &[u64]) -> usize {
        let mut places = emitter.0.places.lock().unwrap();
        let room = places.capacity - places.queue.len();
        let accepted = values.len().min(room);
        places.queue.extend(&values[..accepted]);
        accepted
    }

    fn try_next_all(reader: &mut Reader, values: &mut Vec<u64>, most: usize) {
        let mut places = reader.0.places.lock().unwrap();
        let taken = std::iter::from_fn(|| places.take(reader.1));
        values.extend(taken.take(most).map(|(value, _)| value));
    }
}

impl Blocked for MutexQueue {
    type Emitter = Emitter;
    type Reader = Reader;

    const NAME: &'static str = "mutex-queue-wait";

    fn open(capacity: usize, readers: usize) -> (Emitter, Vec<Reader>) {
        open(capacity, readers)
    }

    fn emit_all(Emitter(shared): Emitter, count: u64) {
        for value in 0..count {
            let places = shared.places.lock().unwrap();
            let room = shared.freed.wait_while(places, |places| places.is_full());
            room.unwrap().queue.push_back(value);
            shared.filled.notify_all();
        }
    }

    fn sum_of(Reader(shared, which): Reader, count: u64) -> u64 {
        let mut sum = 0u64;
        for number in 0..count {
            let places = shared.places.lock().unwrap();
            let is_empty = |places: &mut Places| places.front + places.queue.len() as u64 <= number;
            let mut filled = shared.filled.wait_while(places, is_empty).unwrap();
            let (value, made_room) = filled.take(which).unwrap();
            drop(filled);
            sum = sum.wrapping_add(value);
            if made_room {
                shared.freed.notify_one();
            }
        }
        sum
    }
}

/// Drops the oldest.
pub struct DroppingQueue;

impl Polled for DroppingQueue {
    type Emitter = Emitter;
    type Reader = Reader;

    const NAME: &'static str = NAME;

    fn open(capacity: usize, readers: usize) -> (Emitter, Vec<Reader>) {
        open(capacity, readers)
    }

    fn try_emit(emitter: &mut Emitter, value: u64) -> bool {
        let mut places = emitter.0.places.lock().unwrap();
        if places.is_full() {
            places.drop_front();
        }
        places.queue.push_back(value);
        true
    }

    fn try_next(reader: &mut Reader) -> Option<u64> {
        try_next(reader)
    }
}
