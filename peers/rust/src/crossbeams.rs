//! crossbeam's bounded channels and queues, one for each reader: each value is stored once a reader.

use crate::blocked::Blocked;
use crate::polled::Polled;
use crossbeam_channel::{bounded, Receiver, Sender};
use crossbeam_queue::ArrayQueue;
use std::sync::Arc;

/// A channel for each reader.
pub struct Channels;

pub struct Senders {
    all: Vec<Sender<u64>>,
    /// The first that hasn't got the value yet.
    next: usize,
}

fn open(capacity: usize, readers: usize) -> (Senders, Vec<Receiver<u64>>) {
    let (all, receivers) = (0..readers).map(|_| bounded(capacity)).unzip();
    (Senders { all, next: 0 }, receivers)
}

impl Senders {
    /// Gives the value to each, and waits for room.
    pub fn send(&self, value: u64) {
        for sender in &self.all {
            sender.send(value).unwrap();
        }
    }
}

impl Polled for Channels {
    type Emitter = Senders;
    type Reader = Receiver<u64>;

    const NAME: &'static str = "crossbeam-channel";

    fn open(capacity: usize, readers: usize) -> (Senders, Vec<Receiver<u64>>) {
        open(capacity, readers)
    }

    fn try_emit(senders: &mut Senders, value: u64) -> bool {
        while senders.next < senders.all.len() {
            if senders.all[senders.next].try_send(value).is_err() {
                return false;
            }
            senders.next += 1;
        }
        senders.next = 0;
        true
    }

    fn try_next(receiver: &mut Receiver<u64>) -> Option<u64> {
        receiver.try_recv().ok()
    }
}

impl Blocked for Channels {
    type Emitter = Senders;
    type Reader = Receiver<u64>;

    const NAME: &'static str = "crossbeam-channel-wait";

    fn open(capacity: usize, readers: usize) -> (Senders, Vec<Receiver<u64>>) {
        open(capacity, readers)
    }

    fn emit_all(senders: Senders, count: u64) {
        for value in 0..count {
            senders.send(value);
        }
    }

    fn sum_of(receiver: Receiver<u64>, count: u64) -> u64 {
        let values = receiver.iter().take(count as usize);
        values.fold(0, u64::wrapping_add)
    }
}

/// A queue for each reader, which drops its oldest value where it is full.
pub struct Queues;

impl Polled for Queues {
    type Emitter = Vec<Arc<ArrayQueue<u64>>>;
    type Reader = Arc<ArrayQueue<u64>>;

    const NAME: &'static str = "crossbeam-queue";

    fn open(capacity: usize, readers: usize) -> (Self::Emitter, Vec<Self::Reader>) {
        let all: Vec<_> = (0..readers)
            .map(|_| Arc::new(ArrayQueue::new(capacity)))
            .collect();
        (all.clone(), all)
    }

    fn try_emit(queues: &mut Self::Emitter, value: u64) -> bool {
        for queue in queues.iter() {
            queue.force_push(value);
        }
        true
    }

    fn try_next(queue: &mut Self::Reader) -> Option<u64> {
        queue.pop()
    }
}
