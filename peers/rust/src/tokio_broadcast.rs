//! tokio's broadcast: a ring, a lock for its tail and one for each slot. It always drops the oldest.

use crate::blocked::Blocked;
use crate::padded::Padded;
use crate::pause::Pause;
use crate::polled::Polled;
use futures::executor::block_on;
use std::sync::atomic::Ordering::{Acquire, Release};
use std::sync::Arc;
use tokio::sync::broadcast::error::TryRecvError;
use tokio::sync::broadcast::{channel, Receiver, Sender};

const NAME: &str = "tokio-broadcast";

/// As it is.
pub struct Broadcast;

impl Polled for Broadcast {
    type Emitter = Sender<u64>;
    type Reader = Receiver<u64>;

    const NAME: &'static str = NAME;

    fn open(capacity: usize, readers: usize) -> (Sender<u64>, Vec<Receiver<u64>>) {
        let (sender, first) = channel(capacity);
        let mut all = vec![first];
        all.resize_with(readers, || sender.subscribe());
        (sender, all)
    }

    fn try_emit(sender: &mut Sender<u64>, value: u64) -> bool {
        // it is refused where all readers have gone
        let _ = sender.send(value);
        true
    }

    fn try_next(receiver: &mut Receiver<u64>) -> Option<u64> {
        loop {
            match receiver.try_recv() {
                Ok(value) => return Some(value),
                Err(TryRecvError::Lagged(_)) => {}
                Err(_) => return None,
            }
        }
    }
}

/// Values between two looks of the emitter at the readers' counts.
const BATCH: u64 = 256;

/// How far each reader is, told once in a batch: by that the emitter waits for the slowest at the least cost.
struct Counts {
    taken: Vec<Padded>,
    capacity: u64,
}

impl Counts {
    #[inline]
    fn has_room(&self, next: u64) -> bool {
        next % BATCH != 0
            || self
                .taken
                .iter()
                .all(|taken| next + BATCH - taken.0.load(Acquire) <= self.capacity)
    }

    #[inline]
    fn tell(&self, which: usize, taken: u64) {
        if taken % BATCH == 0 {
            self.taken[which].0.store(taken, Release);
        }
    }
}

/// With a count for each reader, so that nothing is dropped.
pub struct HeldBroadcast;

pub struct HeldSender {
    sender: Sender<u64>,
    counts: Arc<Counts>,
}

pub struct CountedReceiver {
    receiver: Receiver<u64>,
    counts: Arc<Counts>,
    which: usize,
    taken: u64,
}

impl CountedReceiver {
    #[inline]
    fn count_one(&mut self) {
        self.taken += 1;
        self.counts.tell(self.which, self.taken);
    }
}

fn open_held(capacity: usize, readers: usize) -> (HeldSender, Vec<CountedReceiver>) {
    let (sender, receivers) = Broadcast::open(capacity, readers);
    let counts = Arc::new(Counts {
        taken: Padded::zeros(readers),
        capacity: capacity as u64,
    });
    let readers = receivers
        .into_iter()
        .enumerate()
        .map(|(which, receiver)| CountedReceiver {
            receiver,
            counts: counts.clone(),
            which,
            taken: 0,
        })
        .collect();
    (HeldSender { sender, counts }, readers)
}

impl Polled for HeldBroadcast {
    type Emitter = HeldSender;
    type Reader = CountedReceiver;

    const NAME: &'static str = NAME;

    fn open(capacity: usize, readers: usize) -> (HeldSender, Vec<CountedReceiver>) {
        open_held(capacity, readers)
    }

    fn try_emit(held: &mut HeldSender, value: u64) -> bool {
        held.counts.has_room(value) && Broadcast::try_emit(&mut held.sender, value)
    }

    fn try_next(counted: &mut CountedReceiver) -> Option<u64> {
        let value = Broadcast::try_next(&mut counted.receiver)?;
        counted.count_one();
        Some(value)
    }
}

impl Blocked for HeldBroadcast {
    type Emitter = HeldSender;
    type Reader = CountedReceiver;

    const NAME: &'static str = "tokio-broadcast-wait";

    fn open(capacity: usize, readers: usize) -> (HeldSender, Vec<CountedReceiver>) {
        open_held(capacity, readers)
    }

    fn emit_all(held: HeldSender, count: u64) {
        for value in 0..count {
            let mut pause = Pause::new(held.counts.capacity as usize);
            while !held.counts.has_room(value) {
                pause.wait();
            }
            held.sender.send(value).unwrap();
        }
    }

    fn sum_of(mut counted: CountedReceiver, count: u64) -> u64 {
        block_on(async {
            let mut sum = 0u64;
            for _ in 0..count {
                sum = sum.wrapping_add(counted.receiver.recv().await.unwrap());
                counted.count_one();
            }
            sum
        })
    }
}
