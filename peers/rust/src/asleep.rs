//! Emissions of many emitters that all wait for one place, on one thread: a value is received, the emission whose turn it is finds
//! room, and the emitter of the value begins anew.

use crate::figures::{cost, timed, Figure};
#[cfg(feature = "hillgauze")]
use crate::hillgauze_rust::{Tickets, TicketsOfOneThread};
#[cfg(feature = "hillgauze")]
use crate::hillgauze_senders::Emissions;
use futures::task::noop_waker;
#[cfg(feature = "hillgauze")]
use hillgauze::{Slots, Words};
use std::future::Future;
use std::pin::Pin;
use std::task::{Context, Poll};

const RECEIPTS: u64 = 100_000;

/// A flow with one place and so many emitters.
pub trait Queues {
    const NAME: &'static str;

    fn open(emitters: usize) -> Self;

    /// Begins an emission of this emitter, where none of it is in flight.
    fn begin(&mut self, emitter: usize, value: u64);

    /// Whether the emission of this emitter found room.
    fn is_done(&mut self, emitter: usize) -> bool;

    /// The next value, if there is one.
    fn receive(&mut self) -> Option<u64>;
}

pub fn measure() {
    for emitters in [10, 100, 1000] {
        receipt::<AsyncQueue>(emitters);
        receipt::<TokioQueue>(emitters);
        #[cfg(feature = "hillgauze")]
        receipt::<Tickets>(emitters);
        #[cfg(feature = "hillgauze")]
        receipt::<Emissions<Slots>>(emitters);
        #[cfg(feature = "hillgauze")]
        receipt::<Emissions<Words>>(emitters);
        #[cfg(feature = "hillgauze")]
        receipt::<TicketsOfOneThread>(emitters);
    }
}

fn receipt<F: Queues>(emitters: usize) {
    let figure = Figure {
        peer: F::NAME,
        scenario: &format!("asleep-n{emitters}"),
        name: "receipt",
    };
    cost(figure, RECEIPTS, 1, |count| {
        let mut queue = F::open(emitters);
        for emitter in 0..emitters {
            queue.begin(emitter, emitter as u64);
        }
        timed(|| received(&mut queue, emitters, count))
    });
}

fn received<F: Queues>(queue: &mut F, emitters: usize, count: u64) -> u64 {
    for value in 0..count {
        assert_eq!(
            queue.receive(),
            Some(value),
            "{}: a value was lost",
            F::NAME
        );
        let next = (value + 1) as usize % emitters;
        assert!(queue.is_done(next), "{}: no room", F::NAME);
        queue.begin(value as usize % emitters, value + emitters as u64);
    }
    count
}

type Emission<S> = Pin<Box<dyn Future<Output = S>>>;

/// An emitter: its sender, or its emission, which gives the sender back.
enum Emitter<S> {
    Idle(S),
    InFlight(Emission<S>),
    Between,
}

impl<S> Emitter<S> {
    /// The same after a look at its emission, if there is one.
    fn polled(self) -> Emitter<S> {
        let Emitter::InFlight(mut emission) = self else {
            return self;
        };
        let waker = noop_waker();
        match emission.as_mut().poll(&mut Context::from_waker(&waker)) {
            Poll::Ready(sender) => Emitter::Idle(sender),
            Poll::Pending => Emitter::InFlight(emission),
        }
    }

    fn poll(&mut self) -> bool {
        *self = std::mem::replace(self, Emitter::Between).polled();
        matches!(self, Emitter::Idle(_))
    }

    fn begin(&mut self, emission: impl FnOnce(S) -> Emission<S>) {
        let Emitter::Idle(sender) = std::mem::replace(self, Emitter::Between) else {
            panic!("an emission is in flight");
        };
        *self = Emitter::InFlight(emission(sender));
        self.poll();
    }
}

/// async-broadcast.
pub struct AsyncQueue {
    emitters: Vec<Emitter<async_broadcast::Sender<u64>>>,
    receiver: async_broadcast::Receiver<u64>,
}

impl Queues for AsyncQueue {
    const NAME: &'static str = "async-broadcast";

    fn open(emitters: usize) -> AsyncQueue {
        let (sender, receiver) = async_broadcast::broadcast(1);
        let idle = || Emitter::Idle(sender.clone());
        AsyncQueue {
            emitters: (0..emitters).map(|_| idle()).collect(),
            receiver,
        }
    }

    fn begin(&mut self, emitter: usize, value: u64) {
        self.emitters[emitter].begin(|sender| {
            Box::pin(async move {
                sender.broadcast(value).await.unwrap();
                sender
            })
        });
    }

    fn is_done(&mut self, emitter: usize) -> bool {
        self.emitters[emitter].poll()
    }

    fn receive(&mut self) -> Option<u64> {
        self.receiver.try_recv().ok()
    }
}

/// tokio's mpsc, which has one reader.
pub struct TokioQueue {
    emitters: Vec<Emitter<tokio::sync::mpsc::Sender<u64>>>,
    receiver: tokio::sync::mpsc::Receiver<u64>,
}

impl Queues for TokioQueue {
    const NAME: &'static str = "tokio-mpsc";

    fn open(emitters: usize) -> TokioQueue {
        let (sender, receiver) = tokio::sync::mpsc::channel(1);
        let idle = || Emitter::Idle(sender.clone());
        TokioQueue {
            emitters: (0..emitters).map(|_| idle()).collect(),
            receiver,
        }
    }

    fn begin(&mut self, emitter: usize, value: u64) {
        self.emitters[emitter].begin(|sender| {
            Box::pin(async move {
                sender.send(value).await.unwrap();
                sender
            })
        });
    }

    fn is_done(&mut self, emitter: usize) -> bool {
        self.emitters[emitter].poll()
    }

    fn receive(&mut self) -> Option<u64> {
        self.receiver.try_recv().ok()
    }
}
