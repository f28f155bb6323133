//! One thread: what an emission costs where receivers wait as tasks, and where they lag.

use crate::async_broadcasts::AsyncBroadcast;
use crate::figures::{cost, timed, Figure};
#[cfg(feature = "hillgauze")]
use crate::hillgauze_senders::Senders;
use crate::polled::Polled;
use crate::tokio_broadcast::Broadcast;
#[cfg(feature = "hillgauze")]
use hillgauze::{Slots, Words};
use std::future::Future;
use std::pin::Pin;
use std::sync::atomic::{AtomicU64, Ordering::Relaxed};
use std::sync::Arc;
use std::task::{Context, Poll, Wake, Waker};

const EMISSIONS: u64 = 100_000;

/// A receipt, as a task waits for it.
pub type Noted<'a> = Pin<Box<dyn Future<Output = u64> + 'a>>;

/// A flow with one place, whose receivers wait as tasks.
pub trait Notes {
    type Emitter;
    type Reader;

    const NAME: &'static str;

    fn open(readers: usize) -> (Self::Emitter, Vec<Self::Reader>);

    fn emit(emitter: &mut Self::Emitter, value: u64);

    fn wait(reader: &mut Self::Reader) -> Noted<'_>;
}

/// A flow with 64 places that drops the oldest, whose receivers receive nothing.
pub trait Lags {
    type Emitter;
    type Reader;

    const NAME: &'static str;

    fn open(readers: usize) -> (Self::Emitter, Vec<Self::Reader>);

    fn emit(emitter: &mut Self::Emitter, value: u64);
}

pub fn measure_notes() {
    for readers in [1, 16, 64] {
        note::<Broadcast>(readers);
        note::<AsyncBroadcast>(readers);
        #[cfg(feature = "hillgauze")]
        note::<Senders<Slots>>(readers);
        #[cfg(feature = "hillgauze")]
        note::<Senders<Words>>(readers);
    }
}

pub fn measure_lags() {
    for readers in [1, 64, 512] {
        lag::<Broadcast>(readers);
        lag::<AsyncBroadcast>(readers);
        #[cfg(feature = "hillgauze")]
        lag::<Senders<Slots>>(readers);
        #[cfg(feature = "hillgauze")]
        lag::<Senders<Words>>(readers);
    }
}

/// Counts how often it is woken: a task that an executor would run later.
struct Counting(AtomicU64);

impl Wake for Counting {
    fn wake(self: Arc<Self>) {
        self.0.fetch_add(1, Relaxed);
    }
}

fn note<F: Notes>(readers: usize) {
    let figure = Figure {
        peer: F::NAME,
        scenario: &format!("tasks-n{readers}"),
        name: "all",
    };
    cost(figure, EMISSIONS, 1, |count| {
        let (mut emitter, mut all) = F::open(readers);
        timed(|| noted::<F>(&mut emitter, &mut all, count))
    });
}

/// All wait, a value is emitted, all are woken, and each gets it.
fn noted<F: Notes>(emitter: &mut F::Emitter, all: &mut [F::Reader], count: u64) -> u64 {
    let counting = Arc::new(Counting(AtomicU64::new(0)));
    let waker = Waker::from(Arc::clone(&counting));
    let mut context = Context::from_waker(&waker);
    for value in 0..count {
        let mut waits: Vec<Noted<'_>> = all.iter_mut().map(F::wait).collect();
        for wait in &mut waits {
            assert!(wait.as_mut().poll(&mut context).is_pending());
        }
        F::emit(emitter, value);
        for wait in &mut waits {
            assert_eq!(wait.as_mut().poll(&mut context), Poll::Ready(value));
        }
    }
    assert_eq!(counting.0.load(Relaxed), count * all.len() as u64);
    count
}

fn lag<F: Lags>(readers: usize) {
    let figure = Figure {
        peer: F::NAME,
        scenario: &format!("lag-n{readers}"),
        name: "emission",
    };
    cost(figure, EMISSIONS, 1, |count| {
        let (mut emitter, _all) = F::open(readers);
        timed(|| {
            for value in 0..count {
                F::emit(&mut emitter, value);
            }
            count
        })
    });
}

impl Notes for Broadcast {
    type Emitter = <Broadcast as Polled>::Emitter;
    type Reader = <Broadcast as Polled>::Reader;

    const NAME: &'static str = <Broadcast as Polled>::NAME;

    fn open(readers: usize) -> (Self::Emitter, Vec<Self::Reader>) {
        <Broadcast as Polled>::open(1, readers)
    }

    fn emit(sender: &mut Self::Emitter, value: u64) {
        sender.send(value).unwrap();
    }

    fn wait(receiver: &mut Self::Reader) -> Noted<'_> {
        Box::pin(async { receiver.recv().await.unwrap() })
    }
}

impl Lags for Broadcast {
    type Emitter = <Broadcast as Polled>::Emitter;
    type Reader = <Broadcast as Polled>::Reader;

    const NAME: &'static str = <Broadcast as Polled>::NAME;

    fn open(readers: usize) -> (Self::Emitter, Vec<Self::Reader>) {
        <Broadcast as Polled>::open(64, readers)
    }

    fn emit(sender: &mut Self::Emitter, value: u64) {
        sender.send(value).unwrap();
    }
}

impl Notes for AsyncBroadcast {
    type Emitter = <AsyncBroadcast as Polled>::Emitter;
    type Reader = <AsyncBroadcast as Polled>::Reader;

    const NAME: &'static str = <AsyncBroadcast as Polled>::NAME;

    fn open(readers: usize) -> (Self::Emitter, Vec<Self::Reader>) {
        <AsyncBroadcast as Polled>::open(1, readers)
    }

    fn emit(sender: &mut Self::Emitter, value: u64) {
        sender.try_broadcast(value).unwrap();
    }

    fn wait(receiver: &mut Self::Reader) -> Noted<'_> {
        Box::pin(async { receiver.recv().await.unwrap() })
    }
}

impl Lags for AsyncBroadcast {
    type Emitter = <AsyncBroadcast as Polled>::Emitter;
    type Reader = <AsyncBroadcast as Polled>::Reader;

    const NAME: &'static str = <AsyncBroadcast as Polled>::NAME;

    fn open(readers: usize) -> (Self::Emitter, Vec<Self::Reader>) {
        let (mut sender, all) = <AsyncBroadcast as Polled>::open(64, readers);
        sender.set_overflow(true);
        (sender, all)
    }

    fn emit(sender: &mut Self::Emitter, value: u64) {
        sender.try_broadcast(value).unwrap();
    }
}
