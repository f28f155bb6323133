//! Peers by which threads wake each other, one value at a time: who hears sleeps until a value comes.

use crate::async_broadcasts::AsyncBroadcast;
use crate::crossbeams::Channels;
#[cfg(feature = "hillgauze")]
use crate::hillgauze_rust::RustLane;
use crate::polled::Polled;
use crate::states::Watch;
use crate::tokio_broadcast::Broadcast;
use futures::executor::block_on;
#[cfg(feature = "hillgauze")]
use hillgauze::{Collector, StateSeat};
use tokio::sync::watch;

/// A flow with one place, or a state.
pub trait Talks {
    type Emitter: Send + 'static;
    type Reader: Send + 'static;

    const NAME: &'static str;

    fn open(readers: usize) -> (Self::Emitter, Vec<Self::Reader>);

    /// Emits a value, where every reader has taken those before it. No value is 0, and none is equal to the one before.
    fn say(emitter: &mut Self::Emitter, value: u64);

    /// The next value.
    fn hear(reader: &mut Self::Reader) -> u64;
}

impl Talks for Broadcast {
    type Emitter = <Broadcast as Polled>::Emitter;
    type Reader = <Broadcast as Polled>::Reader;

    const NAME: &'static str = "tokio-broadcast-wait";

    fn open(readers: usize) -> (Self::Emitter, Vec<Self::Reader>) {
        <Broadcast as Polled>::open(1, readers)
    }

    fn say(sender: &mut Self::Emitter, value: u64) {
        // it is refused where all readers have gone
        let _ = sender.send(value);
    }

    fn hear(receiver: &mut Self::Reader) -> u64 {
        block_on(receiver.recv()).unwrap()
    }
}

impl Talks for AsyncBroadcast {
    type Emitter = <AsyncBroadcast as Polled>::Emitter;
    type Reader = <AsyncBroadcast as Polled>::Reader;

    const NAME: &'static str = "async-broadcast-wait";

    fn open(readers: usize) -> (Self::Emitter, Vec<Self::Reader>) {
        <AsyncBroadcast as Polled>::open(1, readers)
    }

    fn say(sender: &mut Self::Emitter, value: u64) {
        // it is refused where all readers have gone
        let _ = block_on(sender.broadcast(value));
    }

    fn hear(receiver: &mut Self::Reader) -> u64 {
        block_on(receiver.recv()).unwrap()
    }
}

impl Talks for Channels {
    type Emitter = <Channels as Polled>::Emitter;
    type Reader = <Channels as Polled>::Reader;

    const NAME: &'static str = "crossbeam-channel-wait";

    fn open(readers: usize) -> (Self::Emitter, Vec<Self::Reader>) {
        <Channels as Polled>::open(1, readers)
    }

    fn say(senders: &mut Self::Emitter, value: u64) {
        senders.send(value);
    }

    fn hear(receiver: &mut Self::Reader) -> u64 {
        receiver.recv().unwrap()
    }
}

impl Talks for Watch {
    type Emitter = watch::Sender<u64>;
    type Reader = watch::Receiver<u64>;

    const NAME: &'static str = "tokio-watch-wait";

    fn open(readers: usize) -> (Self::Emitter, Vec<Self::Reader>) {
        let (sender, receiver) = watch::channel(0);
        (sender, vec![receiver; readers])
    }

    fn say(sender: &mut Self::Emitter, value: u64) {
        sender.send_replace(value);
    }

    fn hear(receiver: &mut Self::Reader) -> u64 {
        block_on(receiver.changed()).unwrap();
        *receiver.borrow_and_update()
    }
}

#[cfg(feature = "hillgauze")]
impl Talks for RustLane {
    type Emitter = <RustLane as Polled>::Emitter;
    type Reader = <RustLane as Polled>::Reader;

    const NAME: &'static str = "hillgauze-rust-wait";

    fn open(readers: usize) -> (Self::Emitter, Vec<Self::Reader>) {
        <RustLane as Polled>::open(1, readers)
    }

    fn say(sequencer: &mut Self::Emitter, value: u64) {
        assert!(RustLane::try_emit(sequencer, value));
    }

    fn hear(reader: &mut Self::Reader) -> u64 {
        reader.recv_blocking().unwrap()
    }
}

/// Ours, as a Rust program has it: a state.
#[cfg(feature = "hillgauze")]
pub struct RustState;

#[cfg(feature = "hillgauze")]
impl Talks for RustState {
    type Emitter = StateSeat<u64>;
    type Reader = Collector<u64>;

    const NAME: &'static str = "hillgauze-rust-state-wait";

    fn open(readers: usize) -> (StateSeat<u64>, Vec<Collector<u64>>) {
        let mut seat = StateSeat::new(0, readers as u32 + 1).unwrap();
        let mut collector = || {
            let mut collector = seat.take_seat(0).unwrap().collect();
            // what it is before the first value
            collector.try_next();
            collector
        };
        let all = (0..readers).map(|_| collector()).collect();
        (seat, all)
    }

    fn say(seat: &mut StateSeat<u64>, value: u64) {
        seat.set(value);
    }

    fn hear(collector: &mut Collector<u64>) -> u64 {
        collector.recv_blocking().unwrap()
    }
}
