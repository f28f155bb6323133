//! Who receives from a shared flow that several threads share.

use crate::answers::{Closed, Taken};
use crate::flow::Flow;
use crate::iterators::{IntoIter, Iter, TryIter};
use crate::keep::{Slots, Storage, Words};
use crate::lane::Cursor;
use crate::refusal::Refusal;
use crate::waiting::{Berth, Found, Many, Receive, ReceiveMany, Recv, RecvMany, RecvTimeoutError};
use crate::word::Word;
use std::error::Error;
use std::fmt;
use std::sync::Arc;
use std::task::{Context, Poll};
use std::time::Duration;

/// Why there is no value now.
#[derive(Clone, Copy, Debug, PartialEq, Eq)]
pub enum TryRecvError {
    /// Nothing is pending.
    Empty,
    /// The flow has ended, and each value was received or dropped.
    Ended,
}

impl fmt::Display for TryRecvError {
    fn fmt(&self, f: &mut fmt::Formatter<'_>) -> fmt::Result {
        f.write_str(match self {
            TryRecvError::Empty => "nothing is pending",
            TryRecvError::Ended => "the flow has ended",
        })
    }
}

impl Error for TryRecvError {}

/// What a receiver is told that wants to know of what it lost.
#[derive(Clone, Copy, Debug, PartialEq, Eq)]
pub enum Received<T> {
    /// The next value.
    Value(T),
    /// So many values were dropped for it, between the last value and the next one: tokio's `Lagged`.
    Lagged(u64),
}

/// Who receives from a shared flow, on one thread or task at a time; it may go to another: what runs inside Kotlin's
/// `collect`, tokio's `broadcast::Receiver`. It receives every accepted value from its start on, once, in order, but for
/// what the policy drops. [`Sender::subscribe`](crate::Sender::subscribe) makes one.
///
/// A task waits by [`recv`](Receiver::recv), a thread by [`recv_blocking`](Receiver::recv_blocking),
/// [`recv_timeout`](Receiver::recv_timeout) or a `for` loop; [`try_recv`](Receiver::try_recv) and
/// [`try_iter`](Receiver::try_iter) don't wait. A receiver that is dropped is closed: it holds nobody back, and what was
/// pending for it alone is let go.
///
/// ```
/// use hillgauze::{Config, Sender};
///
/// let sender = Sender::new(Config { extra: 3, ..Config::default() })?;
/// let mut receiver = sender.subscribe()?;
/// sender.try_emit("one".to_string())?;
/// sender.try_emit("two".to_string())?;
/// assert_eq!(receiver.try_iter().collect::<Vec<_>>(), ["one", "two"]);
/// sender.try_emit("three".to_string())?;
/// drop(sender);
/// for value in receiver {
///     assert_eq!(value, "three");
/// }
/// # Ok::<(), Box<dyn std::error::Error>>(())
/// ```
#[must_use = "a receiver that is dropped is closed"]
pub struct Receiver<T, S: Storage<T> = Slots> {
    flow: Arc<Flow<T, S>>,
    cursor: Cursor,
    berth: Berth,
    /// The number of the next value, where none is dropped.
    next: u64,
    /// How many values were replaced between the receipt of their words and a look at their slots.
    late: u64,
    /// How many dropped values it was told of.
    told: u64,
    /// A value that was received, and isn't handed out yet.
    held: Option<T>,
}

impl<T, S: Storage<T>> Receiver<T, S> {
    pub(crate) fn admitted(flow: &Arc<Flow<T, S>>) -> Result<Receiver<T, S>, Refusal> {
        let (cursor, next) = flow.admit()?;
        Ok(Receiver {
            flow: Arc::clone(flow),
            cursor,
            berth: Berth::new(flow.sleepers()),
            next,
            late: 0,
            told: 0,
            held: None,
        })
    }

    /// The next value, by a task that waits until there is one. `None` once the flow has ended and each value was received
    /// or dropped. Dropping it loses nothing: a value is received with the answer alone.
    ///
    /// ```
    /// use hillgauze::Receiver;
    ///
    /// async fn sum(mut receiver: Receiver<u64>) -> u64 {
    ///     let mut sum = 0;
    ///     while let Some(value) = receiver.recv().await {
    ///         sum += value;
    ///     }
    ///     sum
    /// }
    /// ```
    pub fn recv(&mut self) -> Recv<'_, Receiver<T, S>> {
        Recv::by(self)
    }

    /// The same as a poll. This has the shape of `poll_next` of the `Stream` of `futures`.
    pub fn poll_next(&mut self, context: &mut Context<'_>) -> Poll<Option<T>> {
        self.poll(context)
    }

    /// The next value, by this thread, which spins shortly and then sleeps until there is one. `None` as by
    /// [`recv`](Receiver::recv).
    pub fn recv_blocking(&mut self) -> Option<T> {
        self.wait()
    }

    /// The same, for so long at most.
    pub fn recv_timeout(&mut self, most: Duration) -> Result<T, RecvTimeoutError> {
        self.wait_for(most)
    }

    /// The next value, where there is one now.
    pub fn try_recv(&mut self) -> Result<T, TryRecvError> {
        match self.look() {
            Found::Value(value) => Ok(value),
            Found::Nothing => Err(TryRecvError::Empty),
            Found::Ended => Err(TryRecvError::Ended),
        }
    }

    /// What is pending now, value by value; it ends where nothing is, and then may go on later.
    pub fn try_iter(&mut self) -> TryIter<'_, Receiver<T, S>> {
        TryIter::over(self)
    }

    /// The values as they come, each by [`recv_blocking`](Receiver::recv_blocking), until the flow's end.
    pub fn iter(&mut self) -> Iter<'_, Receiver<T, S>> {
        Iter::over(self)
    }

    /// The next value, or how many were dropped for this receiver before it, which is told first, once: what tokio's `recv`
    /// says as `Lagged`. `None` as by [`recv`](Receiver::recv).
    ///
    /// ```
    /// use hillgauze::{Config, Policy, Received, Sender};
    ///
    /// let config = Config { extra: 2, policy: Policy::DropOldest, ..Config::default() };
    /// let sender = Sender::new(config)?;
    /// let mut receiver = sender.subscribe()?;
    /// for value in 1..=5 {
    ///     sender.try_emit(value)?;
    /// }
    /// assert_eq!(receiver.try_recv_or_lagged(), Ok(Received::Lagged(3)));
    /// assert_eq!(receiver.try_recv_or_lagged(), Ok(Received::Value(4)));
    /// assert_eq!(receiver.try_recv_or_lagged(), Ok(Received::Value(5)));
    /// # Ok::<(), Box<dyn std::error::Error>>(())
    /// ```
    pub async fn recv_or_lagged(&mut self) -> Option<Received<T>> {
        let value = self.recv().await?;
        Some(self.or_lagged(value))
    }

    /// The same, where there is one now.
    pub fn try_recv_or_lagged(&mut self) -> Result<Received<T>, TryRecvError> {
        let value = self.try_recv()?;
        Ok(self.or_lagged(value))
    }

    /// The same, by this thread, as [`recv_blocking`](Receiver::recv_blocking).
    pub fn recv_or_lagged_blocking(&mut self) -> Option<Received<T>> {
        let value = self.recv_blocking()?;
        Some(self.or_lagged(value))
    }

    // A value that was received, or first what was dropped before it.
    fn or_lagged(&mut self, value: T) -> Received<T> {
        let dropped = self.dropped();
        let before = std::mem::replace(&mut self.told, dropped);
        if dropped == before {
            return Received::Value(value);
        }
        self.held = Some(value);
        Received::Lagged(dropped - before)
    }

    /// A new receiver of the same flow, as [`Sender::subscribe`](crate::Sender::subscribe) makes one: tokio's
    /// `resubscribe`. What this one has pending isn't pending for the new one, but for what the replay cache has. After the
    /// flow's end the new one gets the replay cache, and has ended.
    pub fn resubscribe(&self) -> Result<Receiver<T, S>, Refusal> {
        Receiver::admitted(&self.flow)
    }

    /// The number of the emission at which it began: that of the oldest value of the replay cache, as it was then.
    pub fn start(&self) -> u64 {
        self.cursor.start()
    }

    /// How many values it received.
    pub fn received(&self) -> u64 {
        self.cursor.received() - self.late
    }

    /// How many values were dropped for it, as far as it has seen.
    pub fn dropped(&self) -> u64 {
        self.cursor.dropped() + self.late
    }

    /// Closes it, and says what became of it: a drop with an answer.
    pub fn close(self) -> Closed {
        Closed {
            start: self.start(),
            received: self.received(),
            dropped: self.dropped(),
        }
    }

    // Takes the value of a word that was received. Others are accepted before the value is cloned, which may panic, and are
    // woken after it: a value that is there by then is kept if a waker panics.
    #[inline]
    fn take(&mut self, word: u64) -> Option<T> {
        let number = self.next;
        self.next += 1;
        let after = self.flow.received(number, 1);
        let value = S::take(&self.flow.slots, word);
        if let Some(after) = after {
            self.held = value;
            drop(after);
            return self.held.take();
        }
        value
    }
}

impl<T, S: Storage<T>> Receive for Receiver<T, S> {
    type Item = T;

    fn berth(&self) -> &Berth {
        &self.berth
    }

    #[inline]
    fn receive(&mut self) -> Option<T> {
        if self.held.is_some() {
            return self.held.take();
        }
        loop {
            match self.cursor.try_next() {
                Taken::Value(word) => match self.take(word) {
                    None => self.late += 1,
                    value => return value,
                },
                Taken::Nothing => return None,
                Taken::Overtaken => {}
            }
        }
    }
}

impl<T: Word> Receiver<T, Words> {
    /// The next values, which it adds to `values`, by a task that waits until there is one: as many as are there, `limit`
    /// of them at most. Answers how many came: 0 where `limit` is 0, and once the flow has ended and each value was
    /// received or dropped. Dropping it loses nothing.
    ///
    /// ```
    /// use hillgauze::{Receiver, Words};
    ///
    /// async fn sum(mut receiver: Receiver<u64, Words>) -> u64 {
    ///     let (mut sum, mut values) = (0, Vec::new());
    ///     while receiver.recv_many(&mut values, 100).await > 0 {
    ///         sum += values.drain(..).sum::<u64>();
    ///     }
    ///     sum
    /// }
    /// ```
    pub fn recv_many<'a>(
        &'a mut self,
        values: &'a mut Vec<T>,
        limit: usize,
    ) -> RecvMany<'a, Receiver<T, Words>> {
        RecvMany::by(self, values, limit)
    }

    /// The same by this thread, which spins shortly and then sleeps until there is one.
    ///
    /// ```
    /// use hillgauze::{Config, Sender};
    ///
    /// let sender = Sender::of_words(Config { extra: 3, ..Config::default() })?;
    /// let mut receiver = sender.subscribe()?;
    /// assert_eq!(sender.try_emit_all(&['a', 'b', 'c', 'd'])?, 3);
    /// drop(sender);
    /// let mut values = Vec::new();
    /// assert_eq!(receiver.recv_many_blocking(&mut values, 2), 2);
    /// assert_eq!(receiver.recv_many_blocking(&mut values, 2), 1);
    /// assert_eq!(receiver.recv_many_blocking(&mut values, 2), 0);
    /// assert_eq!(values, ['a', 'b', 'c']);
    /// # Ok::<(), hillgauze::Refusal>(())
    /// ```
    pub fn recv_many_blocking(&mut self, values: &mut Vec<T>, limit: usize) -> usize {
        Many::of(self, values, limit).map_or(0, |mut many| many.wait().unwrap_or(0))
    }

    /// The same as a poll.
    pub fn poll_recv_many(
        &mut self,
        context: &mut Context<'_>,
        values: &mut Vec<T>,
        limit: usize,
    ) -> Poll<usize> {
        match Many::of(self, values, limit) {
            Some(mut many) => many.poll(context).map(|count| count.unwrap_or(0)),
            None => Poll::Ready(0),
        }
    }
}

impl<T: Word> ReceiveMany for Receiver<T, Words> {
    fn receive_many(&mut self, values: &mut Vec<T>, most: usize) -> Taken<u64> {
        if let Some(value) = self.held.take() {
            values.push(value);
            return Taken::Value(1);
        }
        let taken = self.cursor.try_next_all(values, most);
        if let Taken::Value(count) = taken {
            let first = self.next;
            self.next += count;
            drop(self.flow.received(first, count));
        }
        taken
    }
}

// What it has is moved, and never pinned.
impl<T, S: Storage<T>> Unpin for Receiver<T, S> {}

impl<T, S: Storage<T>> Drop for Receiver<T, S> {
    fn drop(&mut self) {
        let next = self.cursor.start() + self.cursor.received() + self.cursor.dropped();
        self.flow.close(&mut self.cursor, next);
    }
}

impl<T, S: Storage<T>> IntoIterator for Receiver<T, S> {
    type Item = T;
    type IntoIter = IntoIter<Receiver<T, S>>;

    /// The values as they come, until the flow's end. Each further one waits.
    fn into_iter(self) -> IntoIter<Receiver<T, S>> {
        IntoIter::over(self)
    }
}

impl<'a, T, S: Storage<T>> IntoIterator for &'a mut Receiver<T, S> {
    type Item = T;
    type IntoIter = Iter<'a, Receiver<T, S>>;

    fn into_iter(self) -> Iter<'a, Receiver<T, S>> {
        self.iter()
    }
}

impl<T, S: Storage<T>> fmt::Debug for Receiver<T, S> {
    fn fmt(&self, f: &mut fmt::Formatter<'_>) -> fmt::Result {
        f.debug_struct("Receiver").finish_non_exhaustive()
    }
}
