//! A seat that collects the values of a state flow.

use crate::iterators::{Iter, TryIter};
use crate::raw::{self, Handle};
use crate::sleepers::{Emitter, Sleepers};
use crate::state_seat::StateSeat;
use crate::waiting::{Berth, Receive, Recv, RecvTimeoutError};
use crate::word::Word;
use std::fmt;
use std::marker::PhantomData;
use std::sync::Arc;
use std::task::{Context, Poll};
use std::time::Duration;

/// A collector of a state flow, on one thread at a time: what runs inside Kotlin's `collect`. Its first ask gives the
/// value; each later ask gives the value where it isn't the last one given. It misses what was replaced before it
/// asked, never the last value, and receives none out of order.
///
/// [`try_next`](Collector::try_next) is the library's own call. What waits stands over it on Rust's side, and isn't
/// proved: a task waits by [`recv`](Collector::recv), a thread by [`recv_blocking`](Collector::recv_blocking) or
/// [`recv_timeout`](Collector::recv_timeout). A collector can't set, so a flow of which only collectors are left has ended for those who wait, until one
/// of them is [cancelled](Collector::cancel) and sets again.
///
/// ```
/// use hillgauze::StateSeat;
///
/// let mut seat = StateSeat::new(0u64, 2)?;
/// let mut collector = seat.take_seat(0)?.collect();
/// assert_eq!(collector.try_next(), Some(0));
/// seat.set(1);
/// seat.set(2);
/// assert_eq!(collector.recv_blocking(), Some(2));
/// assert_eq!(collector.try_next(), None);
/// drop(seat);
/// assert_eq!(collector.recv_blocking(), None);
/// # Ok::<(), hillgauze::Refusal>(())
/// ```
///
/// A collector that is dropped ends, and takes its seat with it.
#[must_use = "a collector that is dropped ends, and takes its seat with it"]
pub struct Collector<T: Word> {
    handle: Handle<raw::Collector>,
    berth: Berth,
    values: PhantomData<T>,
}

impl<T: Word> Collector<T> {
    pub(crate) fn over(handle: Handle<raw::Collector>, sleepers: &Arc<Sleepers>) -> Collector<T> {
        Collector {
            handle,
            berth: Berth::new(sleepers),
            values: PhantomData,
        }
    }

    /// The value where it isn't the last one that this collector gave, else nothing; by one load. The first ask gives
    /// the value.
    pub fn try_next(&mut self) -> Option<T> {
        // SAFETY: the handle is live, and no other call has it.
        unsafe { raw::hillgauze_collector_try_next(self.handle.at()) }.value()
    }

    /// The next value, by a task that waits until there is one. `None` where nobody is left who could set, and there is
    /// nothing new. Dropping it loses nothing: a value is given with the answer alone.
    ///
    /// ```
    /// use hillgauze::Collector;
    ///
    /// async fn until_ready(mut is_ready: Collector<bool>) -> Option<bool> {
    ///     loop {
    ///         match is_ready.recv().await {
    ///             Some(false) => {}
    ///             ready_or_ended => return ready_or_ended,
    ///         }
    ///     }
    /// }
    /// ```
    pub fn recv(&mut self) -> Recv<'_, Collector<T>> {
        Recv::by(self)
    }

    /// The same as a poll. This has the shape of `poll_next` of the `Stream` of `futures`.
    pub fn poll_next(&mut self, context: &mut Context<'_>) -> Poll<Option<T>> {
        self.poll(context)
    }

    /// The next value, by this thread, which spins shortly and then sleeps until there is one. `None` as by
    /// [`recv`](Collector::recv).
    pub fn recv_blocking(&mut self) -> Option<T> {
        self.wait()
    }

    /// The same, for so long at most.
    pub fn recv_timeout(&mut self, most: Duration) -> Result<T, RecvTimeoutError> {
        self.wait_for(most)
    }

    /// What is new now, value by value; it ends where nothing is, and then may go on later.
    pub fn try_iter(&mut self) -> TryIter<'_, Collector<T>> {
        TryIter::over(self)
    }

    /// The values as they come, each by [`recv_blocking`](Collector::recv_blocking), until nobody is left who could set.
    pub fn iter(&mut self) -> Iter<'_, Collector<T>> {
        Iter::over(self)
    }

    /// Ends the collecting, and gives the seat back: what Kotlin does where the coroutine that collects is cancelled.
    pub fn cancel(self) -> StateSeat<T> {
        let seat = Handle::null();
        // SAFETY: the collector's handle is live, the seat's is null, and no other call has them.
        unsafe { raw::hillgauze_collector_cancel(self.handle.at(), seat.at()) }.done();
        StateSeat::over(seat, Emitter::of(self.berth.sleepers()))
    }
}

impl<T: Word> Receive for Collector<T> {
    type Item = T;

    fn berth(&self) -> &Berth {
        &self.berth
    }

    fn receive(&mut self) -> Option<T> {
        self.try_next()
    }
}

impl<T: Word> fmt::Debug for Collector<T> {
    fn fmt(&self, f: &mut fmt::Formatter<'_>) -> fmt::Result {
        f.debug_struct("Collector").finish_non_exhaustive()
    }
}
