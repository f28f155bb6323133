//! async-broadcast: one lock. It waits where it is full, or drops the oldest.

use crate::blocked::Blocked;
use crate::polled::Polled;
use async_broadcast::{broadcast, Receiver, Sender, TryRecvError};
use futures::executor::block_on;

const NAME: &str = "async-broadcast";

fn open(capacity: usize, readers: usize) -> (Sender<u64>, Vec<Receiver<u64>>) {
    let (sender, first) = broadcast(capacity);
    let mut all = vec![first];
    all.resize_with(readers, || sender.new_receiver());
    (sender, all)
}

/// As `Policy::Suspend`.
pub struct AsyncBroadcast;

impl Polled for AsyncBroadcast {
    type Emitter = Sender<u64>;
    type Reader = Receiver<u64>;

    const NAME: &'static str = NAME;

    fn open(capacity: usize, readers: usize) -> (Sender<u64>, Vec<Receiver<u64>>) {
        open(capacity, readers)
    }

    fn try_emit(sender: &mut Sender<u64>, value: u64) -> bool {
        sender.try_broadcast(value).is_ok()
    }

    fn try_next(receiver: &mut Receiver<u64>) -> Option<u64> {
        receiver.try_recv().ok()
    }
}

impl Blocked for AsyncBroadcast {
    type Emitter = Sender<u64>;
    type Reader = Receiver<u64>;

    const NAME: &'static str = "async-broadcast-wait";

    fn open(capacity: usize, readers: usize) -> (Sender<u64>, Vec<Receiver<u64>>) {
        open(capacity, readers)
    }

    fn emit_all(sender: Sender<u64>, count: u64) {
        block_on(async {
            for value in 0..count {
                sender.broadcast(value).await.unwrap();
            }
        });
    }

    fn sum_of(mut receiver: Receiver<u64>, count: u64) -> u64 {
        block_on(async {
            let mut sum = 0u64;
            for _ in 0..count {
                sum = sum.wrapping_add(receiver.recv().await.unwrap());
            }
            sum
        })
    }
}

/// As `Policy::DropOldest`.
pub struct DroppingBroadcast;

impl Polled for DroppingBroadcast {
    type Emitter = Sender<u64>;
    type Reader = Receiver<u64>;

    const NAME: &'static str = NAME;

    fn open(capacity: usize, readers: usize) -> (Sender<u64>, Vec<Receiver<u64>>) {
        let (mut sender, all) = open(capacity, readers);
        sender.set_overflow(true);
        (sender, all)
    }

    fn try_emit(sender: &mut Sender<u64>, value: u64) -> bool {
        sender.try_broadcast(value).is_ok()
    }

    fn try_next(receiver: &mut Receiver<u64>) -> Option<u64> {
        loop {
            match receiver.try_recv() {
                Ok(value) => return Some(value),
                Err(TryRecvError::Overflowed(_)) => {}
                Err(_) => return None,
            }
        }
    }
}
