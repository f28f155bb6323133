//! A reader comes and goes beside others that stay, on one thread.

use crate::async_broadcasts::AsyncBroadcast;
use crate::figures::{cost, timed, Figure};
#[cfg(feature = "hillgauze")]
use crate::hillgauze_rust::{Guests, GuestsOfOneThread};
#[cfg(feature = "hillgauze")]
use crate::hillgauze_senders;
use crate::polled::Polled;
use crate::tokio_broadcast::Broadcast;
#[cfg(feature = "hillgauze")]
use hillgauze::{Slots, Words};

const TURNS: u64 = 1_000_000;

/// A flow with so many readers that stay.
pub trait Churns {
    const NAME: &'static str;

    fn open(live: usize) -> Self;

    /// One more reader comes, and goes.
    fn come_and_go(&mut self);
}

pub fn measure() {
    for live in [1, 64, 512] {
        turn::<TokioGuests>(live);
        turn::<AsyncGuests>(live);
        #[cfg(feature = "hillgauze")]
        turn::<Guests>(live);
        #[cfg(feature = "hillgauze")]
        turn::<hillgauze_senders::Guests<Slots>>(live);
        #[cfg(feature = "hillgauze")]
        turn::<hillgauze_senders::Guests<Words>>(live);
        #[cfg(feature = "hillgauze")]
        turn::<GuestsOfOneThread>(live);
    }
}

fn turn<F: Churns>(live: usize) {
    let figure = Figure {
        peer: F::NAME,
        scenario: &format!("churn-n{live}"),
        name: "turn",
    };
    cost(figure, TURNS, 1, |count| {
        let mut flow = F::open(live);
        timed(|| turns(&mut flow, count))
    });
}

fn turns<F: Churns>(flow: &mut F, count: u64) -> u64 {
    for _ in 0..count {
        flow.come_and_go();
    }
    count
}

/// The emitter of a flow, and the readers that stay.
type Party<F> = (<F as Polled>::Emitter, Vec<<F as Polled>::Reader>);

/// tokio's broadcast.
pub struct TokioGuests(Party<Broadcast>);

impl Churns for TokioGuests {
    const NAME: &'static str = <Broadcast as Polled>::NAME;

    fn open(live: usize) -> TokioGuests {
        TokioGuests(Broadcast::open(1, live))
    }

    fn come_and_go(&mut self) {
        let TokioGuests((sender, _live)) = self;
        drop(sender.subscribe());
    }
}

/// async-broadcast.
pub struct AsyncGuests(Party<AsyncBroadcast>);

impl Churns for AsyncGuests {
    const NAME: &'static str = <AsyncBroadcast as Polled>::NAME;

    fn open(live: usize) -> AsyncGuests {
        AsyncGuests(<AsyncBroadcast as Polled>::open(1, live))
    }

    fn come_and_go(&mut self) {
        let AsyncGuests((sender, _live)) = self;
        drop(sender.new_receiver());
    }
}
