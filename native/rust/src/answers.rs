//! What the calls answer.

use std::sync::atomic::{AtomicU64, Ordering::Relaxed};

/// Which flow a ticket or a subscription is of. No two flows of a process have the same.
#[derive(Clone, Copy, Debug, PartialEq, Eq, Hash)]
pub(crate) struct FlowId(u64);

impl FlowId {
    /// The one of a new flow.
    pub(crate) fn next() -> FlowId {
        static NEXT: AtomicU64 = AtomicU64::new(0);
        FlowId(NEXT.fetch_add(1, Relaxed))
    }
}

macro_rules! numbers_of_a_flow {
    ($($(#[$line:meta])* $name:ident;)*) => {$(
        $(#[$line])*
        #[derive(Clone, Copy, Debug, PartialEq, Eq, Hash)]
        pub struct $name {
            flow: FlowId,
            number: u64,
        }

        impl $name {
            pub(crate) fn new(flow: FlowId, number: u64) -> $name {
                $name { flow, number }
            }

            /// Its number, counted up from [`first`](crate::Config::first). A number alone stands for nothing: only
            /// what the flow gave is taken by it.
            pub fn number(self) -> u64 {
                self.number
            }

            /// Its number, where it is of this flow.
            #[inline]
            pub(crate) fn of(self, flow: FlowId) -> Option<u64> {
                (self.flow == flow).then_some(self.number)
            }
        }
    )*};
}

numbers_of_a_flow! {
    /// A subscription of a [`SharedState`](crate::SharedState), as that one gave it. Another flow answers as if it
    /// weren't live.
    SubId;
    /// A ticket, which stands for an emission that wasn't finished at once. For another flow than the one that gave it,
    /// it isn't out.
    Ticket;
}

/// The answer of a try.
#[must_use]
#[derive(Clone, Copy, Debug, PartialEq, Eq)]
pub enum Tried {
    /// It was accepted, with this number, counted up from [`first`](crate::Config::first).
    Accepted(u64),
    /// The policy dropped it, and nothing changed.
    Dropped,
    /// It would have to wait, and nothing changed.
    Full,
}

/// The answer at the start of an emission.
#[must_use]
#[derive(Clone, Copy, Debug, PartialEq, Eq)]
pub enum Begun {
    /// It was accepted with this number, and is finished.
    Accepted(u64),
    /// The policy dropped it, and nothing changed.
    Dropped,
    /// It isn't finished: it waits for room, or was accepted and is on its way to the subscribers.
    Waiting(Ticket),
}

/// Where an emission stands.
#[must_use]
#[derive(Clone, Copy, Debug, PartialEq, Eq)]
pub enum Emit {
    /// It was accepted with this number and is finished; its ticket is taken back.
    Done(u64),
    /// It isn't finished.
    Waiting,
    /// The ticket isn't out.
    Gone,
}

/// What became of an emission that was given up.
#[derive(Clone, Copy, Debug, PartialEq, Eq)]
pub enum Withdrawn {
    /// It waited and was never accepted.
    Removed,
    /// It was accepted with this number, and its value stays with the subscribers.
    Left(u64),
    /// The ticket isn't out.
    Gone,
}

/// The next value of a subscription.
#[must_use]
#[derive(Clone, Copy, Debug, PartialEq, Eq)]
pub enum Next<T> {
    /// The value, which is received with this answer.
    Value(T),
    /// No value is pending yet.
    Nothing,
    /// The subscription isn't live.
    Closed,
}

/// What a reader's attempt to take the next value came to.
#[must_use]
#[derive(Clone, Copy, Debug, PartialEq, Eq)]
pub enum Taken<T> {
    /// The value at the reader's position, which it received by this.
    Value(T),
    /// Each accepted value was received or dropped, as far as the reader looked.
    Nothing,
    /// The value was dropped while the reader was about to take it: nothing was received, and the reader goes on at a
    /// later one. Only under [`DropOldest`](crate::Policy::DropOldest), where emissions go on meanwhile.
    Overtaken,
}

/// What became of a reader that was closed. What was pending was given up.
#[derive(Clone, Copy, Debug, PartialEq, Eq)]
pub struct Closed {
    /// The number at which it began.
    pub start: u64,
    /// How many values it received.
    pub received: u64,
    /// How many values were dropped for it.
    pub dropped: u64,
}
