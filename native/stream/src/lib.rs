//! Receivers, readers and collectors of the crate hillgauze as streams of `futures-core`.
//!
//! This is a crate of its own, as tokio's `tokio-stream` is, since cargo asks a registry also for what is optional: so the
//! crate hillgauze asks for nothing.
//!
//! ```
//! use futures_core::Stream;
//! use hillgauze::{Config, Sender};
//! use hillgauze_stream::Values;
//! use std::future::poll_fn;
//! use std::pin::Pin;
//!
//! async fn sum(mut values: impl Stream<Item = u64> + Unpin) -> u64 {
//!     let mut sum = 0;
//!     while let Some(value) = poll_fn(|context| Pin::new(&mut values).poll_next(context)).await {
//!         sum += value;
//!     }
//!     sum
//! }
//!
//! let sender = Sender::new(Config::default())?;
//! let _sum = sum(Values::from(sender.subscribe()?));
//! # Ok::<(), hillgauze::Refusal>(())
//! ```
#![deny(missing_docs)]
#![forbid(unsafe_code)]

use futures_core::stream::{FusedStream, Stream};
use hillgauze::{Collector, Reader, Receiver, Storage, Word};
use std::pin::Pin;
use std::task::{Context, Poll};

/// The values of a receiver, a reader or a collector as they come, until the end: tokio's `BroadcastStream` and
/// `WatchStream`, without an item for what was lost.
#[derive(Debug)]
#[must_use = "a stream does nothing unless it is polled"]
pub struct Values<R> {
    receiver: R,
    has_ended: bool,
}

impl<R> Values<R> {
    /// What receives.
    pub fn get_ref(&self) -> &R {
        &self.receiver
    }

    /// What receives. Values that are received by it don't come to the stream.
    pub fn get_mut(&mut self) -> &mut R {
        &mut self.receiver
    }

    /// What receives, with all that is pending.
    pub fn into_inner(self) -> R {
        self.receiver
    }
}

impl<R> From<R> for Values<R> {
    fn from(receiver: R) -> Values<R> {
        Values {
            receiver,
            has_ended: false,
        }
    }
}

macro_rules! streams {
    ($(($($parameters:tt)*) $receiver:ty;)*) => {$(
        impl<$($parameters)*> Stream for Values<$receiver> {
            type Item = T;

            fn poll_next(mut self: Pin<&mut Self>, context: &mut Context<'_>) -> Poll<Option<T>> {
                let next = self.receiver.poll_next(context);
                self.has_ended = matches!(next, Poll::Ready(None));
                next
            }
        }

        impl<$($parameters)*> FusedStream for Values<$receiver> {
            fn is_terminated(&self) -> bool {
                self.has_ended
            }
        }
    )*};
}

streams! {
    (T, S: Storage<T>) Receiver<T, S>;
    (T: Word + Unpin) Reader<T>;
    (T: Word + Unpin) Collector<T>;
}
