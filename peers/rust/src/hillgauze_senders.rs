//! Ours, as a Rust program has it: senders and receivers of the crate native/rust, whose values lie in slots, as any type's
//! do, or are words.

use crate::asleep::Queues;
use crate::blocked::Blocked;
use crate::churn::Churns;
use crate::polled::Polled;
use crate::talks::Talks;
use crate::tasks::{Lags, Noted, Notes};
use futures::task::noop_waker_ref;
use hillgauze::{Config, Emission, Policy, Receiver, Sender, Slots, Storage, Words};
use std::future::Future;
use std::marker::PhantomData;
use std::pin::Pin;
use std::task::{Context, Poll};

/// How the values are kept.
pub trait Kept: Storage<u64> + Sized + 'static {
    const NAME: &'static str;
    const WAITING_NAME: &'static str;

    fn sender(config: Config) -> Sender<u64, Self>;
}

impl Kept for Slots {
    const NAME: &'static str = "hillgauze-sender";
    const WAITING_NAME: &'static str = "hillgauze-sender-wait";

    fn sender(config: Config) -> Sender<u64> {
        Sender::new(config).unwrap()
    }
}

impl Kept for Words {
    const NAME: &'static str = "hillgauze-sender-words";
    const WAITING_NAME: &'static str = "hillgauze-sender-words-wait";

    fn sender(config: Config) -> Sender<u64, Words> {
        Sender::of_words(config).unwrap()
    }
}

/// A flow of senders and receivers.
pub struct Senders<S>(PhantomData<S>);

type Party<S> = (Sender<u64, S>, Vec<Receiver<u64, S>>);

fn open<S: Kept>(config: Config, readers: usize) -> Party<S> {
    let sender = S::sender(config);
    let all = (0..readers).map(|_| sender.subscribe().unwrap()).collect();
    (sender, all)
}

fn with_places(capacity: usize) -> Config {
    Config {
        extra: capacity as u64,
        subscribers: 1024,
        ..Config::default()
    }
}

impl<S: Kept> Polled for Senders<S> {
    type Emitter = Sender<u64, S>;
    type Reader = Receiver<u64, S>;

    const NAME: &'static str = S::NAME;

    fn open(capacity: usize, readers: usize) -> Party<S> {
        open(with_places(capacity), readers)
    }

    #[inline]
    fn try_emit(sender: &mut Sender<u64, S>, value: u64) -> bool {
        sender.try_emit(value).is_ok()
    }

    #[inline]
    fn try_next(receiver: &mut Receiver<u64, S>) -> Option<u64> {
        receiver.try_recv().ok()
    }
}

impl<S: Kept> Blocked for Senders<S> {
    type Emitter = Sender<u64, S>;
    type Reader = Receiver<u64, S>;

    const NAME: &'static str = S::WAITING_NAME;

    fn open(capacity: usize, readers: usize) -> Party<S> {
        open(with_places(capacity), readers)
    }

    fn emit_all(sender: Sender<u64, S>, count: u64) {
        for value in 0..count {
            sender.emit_blocking(value).unwrap();
        }
    }

    fn sum_of(receiver: Receiver<u64, S>, count: u64) -> u64 {
        receiver
            .into_iter()
            .take(count as usize)
            .fold(0, u64::wrapping_add)
    }
}

impl<S: Kept> Talks for Senders<S> {
    type Emitter = Sender<u64, S>;
    type Reader = Receiver<u64, S>;

    const NAME: &'static str = S::WAITING_NAME;

    fn open(readers: usize) -> Party<S> {
        open(with_places(1), readers)
    }

    fn say(sender: &mut Sender<u64, S>, value: u64) {
        sender.try_emit(value).unwrap();
    }

    fn hear(receiver: &mut Receiver<u64, S>) -> u64 {
        receiver.recv_blocking().unwrap()
    }
}

/// A flow with receivers that stay.
pub struct Guests<S: Kept> {
    sender: Sender<u64, S>,
    _live: Vec<Receiver<u64, S>>,
}

impl<S: Kept> Churns for Guests<S> {
    const NAME: &'static str = S::NAME;

    fn open(live: usize) -> Guests<S> {
        let (sender, _live) = open(with_places(1), live);
        Guests { sender, _live }
    }

    fn come_and_go(&mut self) {
        drop(self.sender.subscribe().unwrap());
    }
}

fn poll<F: Future + Unpin>(future: &mut F) -> Poll<F::Output> {
    Pin::new(future).poll(&mut Context::from_waker(noop_waker_ref()))
}

/// Emissions that wait for one place, by futures that nobody wakes: who has one polls.
pub struct Emissions<S: Kept> {
    // Before their sender, which they borrow.
    waiting: Vec<Option<Emission<'static, u64, S>>>,
    receiver: Receiver<u64, S>,
    sender: &'static Sender<u64, S>,
}

impl<S: Kept> Queues for Emissions<S> {
    const NAME: &'static str = S::NAME;

    fn open(emitters: usize) -> Emissions<S> {
        let (sender, mut all) = open::<S>(with_places(1), 1);
        Emissions {
            waiting: (0..emitters).map(|_| None).collect(),
            receiver: all.remove(0),
            // A repeat leaks one, which is small.
            sender: Box::leak(Box::new(sender)),
        }
    }

    fn begin(&mut self, emitter: usize, value: u64) {
        let mut emission = self.sender.emit(value);
        let is_done = poll(&mut emission).is_ready();
        self.waiting[emitter] = (!is_done).then_some(emission);
    }

    fn is_done(&mut self, emitter: usize) -> bool {
        let Some(mut emission) = self.waiting[emitter].take() else {
            return true;
        };
        let is_done = poll(&mut emission).is_ready();
        if !is_done {
            self.waiting[emitter] = Some(emission);
        }
        is_done
    }

    fn receive(&mut self) -> Option<u64> {
        self.receiver.try_recv().ok()
    }
}

impl<S: Kept> Notes for Senders<S> {
    type Emitter = Sender<u64, S>;
    type Reader = Receiver<u64, S>;

    const NAME: &'static str = S::NAME;

    fn open(readers: usize) -> Party<S> {
        open(with_places(1), readers)
    }

    fn emit(sender: &mut Sender<u64, S>, value: u64) {
        sender.try_emit(value).unwrap();
    }

    fn wait<'a>(receiver: &'a mut Receiver<u64, S>) -> Noted<'a> {
        Box::pin(async { receiver.recv().await.unwrap() })
    }
}

impl<S: Kept> Lags for Senders<S> {
    type Emitter = Sender<u64, S>;
    type Reader = Receiver<u64, S>;

    const NAME: &'static str = S::NAME;

    fn open(readers: usize) -> Party<S> {
        let config = Config {
            policy: Policy::DropOldest,
            ..with_places(64)
        };
        open(config, readers)
    }

    fn emit(sender: &mut Sender<u64, S>, value: u64) {
        sender.try_emit(value).unwrap();
    }
}
