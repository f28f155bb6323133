//! Buffers between two threads: the channels of std, tokio and futures.

use crate::blocked::Blocked;
use futures::channel::mpsc as futures_mpsc;
use futures::executor::block_on;
use futures::{SinkExt, StreamExt};
use std::sync::mpsc as std_mpsc;
use tokio::sync::mpsc as tokio_mpsc;

pub struct SyncChannel;

impl Blocked for SyncChannel {
    type Emitter = std_mpsc::SyncSender<u64>;
    type Reader = std_mpsc::Receiver<u64>;

    const NAME: &'static str = "std-sync-channel-wait";

    fn open(capacity: usize, _one: usize) -> (Self::Emitter, Vec<Self::Reader>) {
        let (sender, receiver) = std_mpsc::sync_channel(capacity);
        (sender, vec![receiver])
    }

    fn emit_all(sender: Self::Emitter, count: u64) {
        for value in 0..count {
            sender.send(value).unwrap();
        }
    }

    fn sum_of(receiver: Self::Reader, count: u64) -> u64 {
        let values = receiver.iter().take(count as usize);
        values.fold(0, u64::wrapping_add)
    }
}

pub struct TokioChannel;

impl Blocked for TokioChannel {
    type Emitter = tokio_mpsc::Sender<u64>;
    type Reader = tokio_mpsc::Receiver<u64>;

    const NAME: &'static str = "tokio-mpsc-wait";

    fn open(capacity: usize, _one: usize) -> (Self::Emitter, Vec<Self::Reader>) {
        let (sender, receiver) = tokio_mpsc::channel(capacity);
        (sender, vec![receiver])
    }

    fn emit_all(sender: Self::Emitter, count: u64) {
        block_on(async {
            for value in 0..count {
                sender.send(value).await.unwrap();
            }
        });
    }

    fn sum_of(mut receiver: Self::Reader, count: u64) -> u64 {
        block_on(async {
            let mut sum = 0u64;
            for _ in 0..count {
                sum = sum.wrapping_add(receiver.recv().await.unwrap());
            }
            sum
        })
    }
}

pub struct FuturesChannel;

impl Blocked for FuturesChannel {
    type Emitter = futures_mpsc::Sender<u64>;
    type Reader = futures_mpsc::Receiver<u64>;

    const NAME: &'static str = "futures-mpsc-wait";

    fn open(capacity: usize, _one: usize) -> (Self::Emitter, Vec<Self::Reader>) {
        let (sender, receiver) = futures_mpsc::channel(capacity);
        (sender, vec![receiver])
    }

    fn emit_all(mut sender: Self::Emitter, count: u64) {
        block_on(async {
            for value in 0..count {
                sender.feed(value).await.unwrap();
            }
        });
    }

    fn sum_of(mut receiver: Self::Reader, count: u64) -> u64 {
        block_on(async {
            let mut sum = 0u64;
            for _ in 0..count {
                sum = sum.wrapping_add(receiver.next().await.unwrap());
            }
            sum
        })
    }
}
