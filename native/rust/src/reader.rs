//! One subscriber's end of a lane.

use crate::answers::{Closed, Taken};
use crate::iterators::{IntoIter, Iter, TryIter};
use crate::lane::Cursor;
use crate::sleepers::Sleepers;
use crate::waiting::{Berth, Many, Receive, ReceiveMany, Recv, RecvMany, RecvTimeoutError};
use crate::word::Word;
use std::fmt;
use std::marker::PhantomData;
use std::sync::Arc;
use std::task::{Context, Poll};
use std::time::Duration;

/// One subscriber's end of a lane, on one thread at a time; it may go to another. It receives every accepted value from
/// its start on, once, in order, but for what the policy drops.
///
/// [`try_next`](Reader::try_next) and [`try_next_all`](Reader::try_next_all) are the library's own calls. What waits
/// stands over them on Rust's side, and isn't proved: a task waits by [`recv`](Reader::recv) and
/// [`recv_many`](Reader::recv_many), a thread by [`recv_blocking`](Reader::recv_blocking),
/// [`recv_many_blocking`](Reader::recv_many_blocking), [`recv_timeout`](Reader::recv_timeout) or a `for` loop.
/// [`try_iter`](Reader::try_iter) gives what is there now:
///
/// ```
/// use hillgauze::{Config, Sequencer, Tried};
///
/// let mut sequencer = Sequencer::new(Config { replay: 2, ..Config::default() })?;
/// for value in ['a', 'b', 'c'] {
///     assert!(matches!(sequencer.try_emit(0, value)?, Tried::Accepted(_)));
/// }
/// let mut reader = sequencer.admit()?;
/// assert_eq!(reader.try_iter().collect::<String>(), "bc");
/// # Ok::<(), hillgauze::Refusal>(())
/// ```
///
/// A reader that is dropped is closed: its place can be used again, and it holds nobody back.
#[must_use = "a reader that is dropped is closed"]
pub struct Reader<T: Word> {
    cursor: Cursor,
    berth: Berth,
    values: PhantomData<T>,
}

impl<T: Word> Reader<T> {
    pub(crate) fn over(cursor: Cursor, sleepers: &Arc<Sleepers>) -> Reader<T> {
        Reader {
            cursor,
            berth: Berth::new(sleepers),
            values: PhantomData,
        }
    }

    /// Takes the next value, without a lock.
    pub fn try_next(&mut self) -> Taken<T> {
        self.cursor.try_next()
    }

    /// Takes the next values at once, without a lock, and adds them to `values`: as many as are there, `most` of them at
    /// most, and never more than 64. `Value` tells how many came: where `most` is 0, none of those that are there.
    ///
    /// ```
    /// use hillgauze::{Config, Sequencer, Taken};
    ///
    /// let mut sequencer = Sequencer::new(Config { extra: 3, ..Config::default() })?;
    /// let mut reader = sequencer.admit()?;
    /// assert_eq!(sequencer.try_emit_all(0, &[7, 8, 9])?, 3);
    /// let mut values = vec![6];
    /// assert_eq!(reader.try_next_all(&mut values, 2), Taken::Value(2));
    /// assert_eq!(values, [6, 7, 8]);
    /// assert_eq!(reader.try_next_all(&mut values, 2), Taken::Value(1));
    /// assert_eq!(reader.try_next_all(&mut values, 2), Taken::Nothing);
    /// # Ok::<(), hillgauze::Refusal>(())
    /// ```
    pub fn try_next_all(&mut self, values: &mut Vec<T>, most: usize) -> Taken<u64> {
        self.cursor.try_next_all(values, most)
    }

    /// The next value, by a task that waits until there is one. `None` once the sequencer is gone and each value was
    /// received or dropped. Dropping it loses nothing: a value is received with the answer alone.
    ///
    /// ```
    /// use hillgauze::Reader;
    ///
    /// async fn sum(mut reader: Reader<u64>) -> u64 {
    ///     let mut sum = 0;
    ///     while let Some(value) = reader.recv().await {
    ///         sum += value;
    ///     }
    ///     sum
    /// }
    /// ```
    pub fn recv(&mut self) -> Recv<'_, Reader<T>> {
        Recv::by(self)
    }

    /// The same as a poll. This has the shape of `poll_next` of the `Stream` of `futures`.
    pub fn poll_next(&mut self, context: &mut Context<'_>) -> Poll<Option<T>> {
        self.poll(context)
    }

    /// The next value, by this thread, which spins shortly and then sleeps until there is one. `None` as by
    /// [`recv`](Reader::recv).
    pub fn recv_blocking(&mut self) -> Option<T> {
        self.wait()
    }

    /// The same, for so long at most.
    ///
    /// ```
    /// use hillgauze::{Config, RecvTimeoutError, Sequencer, Tried};
    /// use std::time::Duration;
    ///
    /// let mut sequencer = Sequencer::<u32>::new(Config { extra: 1, ..Config::default() })?;
    /// let mut reader = sequencer.admit()?;
    /// let moment = Duration::from_millis(5);
    /// assert_eq!(reader.recv_timeout(moment), Err(RecvTimeoutError::Timeout));
    /// assert_eq!(sequencer.try_emit(0, 7)?, Tried::Accepted(0));
    /// drop(sequencer);
    /// assert_eq!(reader.recv_timeout(moment), Ok(7));
    /// assert_eq!(reader.recv_timeout(moment), Err(RecvTimeoutError::Ended));
    /// # Ok::<(), hillgauze::Refusal>(())
    /// ```
    pub fn recv_timeout(&mut self, most: Duration) -> Result<T, RecvTimeoutError> {
        self.wait_for(most)
    }

    /// The next values, which it adds to `values`, by a task that waits until there is one: as many as are there, `limit`
    /// of them at most. Answers how many came: 0 where `limit` is 0, and once the sequencer is gone and each value was
    /// received or dropped. Dropping it loses nothing.
    ///
    /// ```
    /// use hillgauze::Reader;
    ///
    /// async fn sum(mut reader: Reader<u64>) -> u64 {
    ///     let (mut sum, mut values) = (0, Vec::new());
    ///     while reader.recv_many(&mut values, 100).await > 0 {
    ///         sum += values.drain(..).sum::<u64>();
    ///     }
    ///     sum
    /// }
    /// ```
    pub fn recv_many<'a>(
        &'a mut self,
        values: &'a mut Vec<T>,
        limit: usize,
    ) -> RecvMany<'a, Reader<T>> {
        RecvMany::by(self, values, limit)
    }

    /// The same by this thread, which spins shortly and then sleeps until there is one.
    ///
    /// ```
    /// use hillgauze::{Config, Sequencer};
    ///
    /// let mut sequencer = Sequencer::new(Config { extra: 3, ..Config::default() })?;
    /// let mut reader = sequencer.admit()?;
    /// assert_eq!(sequencer.try_emit_all(0, &['a', 'b', 'c'])?, 3);
    /// drop(sequencer);
    /// let mut values = Vec::new();
    /// assert_eq!(reader.recv_many_blocking(&mut values, 2), 2);
    /// assert_eq!(reader.recv_many_blocking(&mut values, 2), 1);
    /// assert_eq!(reader.recv_many_blocking(&mut values, 2), 0);
    /// assert_eq!(values, ['a', 'b', 'c']);
    /// # Ok::<(), hillgauze::Refusal>(())
    /// ```
    pub fn recv_many_blocking(&mut self, values: &mut Vec<T>, limit: usize) -> usize {
        Many::of(self, values, limit).map_or(0, |mut many| many.wait().unwrap_or(0))
    }

    /// The same as a poll.
    pub fn poll_recv_many(
        &mut self,
        context: &mut Context<'_>,
        values: &mut Vec<T>,
        limit: usize,
    ) -> Poll<usize> {
        match Many::of(self, values, limit) {
            Some(mut many) => many.poll(context).map(|count| count.unwrap_or(0)),
            None => Poll::Ready(0),
        }
    }

    /// What is there now, value by value; it ends where nothing is, and then may go on later.
    pub fn try_iter(&mut self) -> TryIter<'_, Reader<T>> {
        TryIter::over(self)
    }

    /// The values as they come, each by [`recv_blocking`](Reader::recv_blocking), until the end.
    pub fn iter(&mut self) -> Iter<'_, Reader<T>> {
        Iter::over(self)
    }

    /// The number of the emission at which it began: that of the oldest value of the replay cache, as it was then.
    pub fn start(&self) -> u64 {
        self.cursor.start()
    }

    /// How many values it received.
    pub fn received(&self) -> u64 {
        self.cursor.received()
    }

    /// How many values were dropped for it, as far as it has seen.
    pub fn dropped(&self) -> u64 {
        self.cursor.dropped()
    }

    /// Closes it, and says what became of it: a drop with an answer.
    pub fn close(self) -> Closed {
        Closed {
            start: self.start(),
            received: self.received(),
            dropped: self.dropped(),
        }
    }
}

impl<T: Word> Receive for Reader<T> {
    type Item = T;

    fn berth(&self) -> &Berth {
        &self.berth
    }

    fn receive(&mut self) -> Option<T> {
        loop {
            match self.try_next() {
                Taken::Value(value) => return Some(value),
                Taken::Nothing => return None,
                Taken::Overtaken => {}
            }
        }
    }
}

impl<T: Word> ReceiveMany for Reader<T> {
    fn receive_many(&mut self, values: &mut Vec<T>, most: usize) -> Taken<u64> {
        self.try_next_all(values, most)
    }
}

/// The values as they come, until the end. Each further one waits.
impl<T: Word> IntoIterator for Reader<T> {
    type Item = T;
    type IntoIter = IntoIter<Reader<T>>;

    fn into_iter(self) -> IntoIter<Reader<T>> {
        IntoIter::over(self)
    }
}

impl<'a, T: Word> IntoIterator for &'a mut Reader<T> {
    type Item = T;
    type IntoIter = Iter<'a, Reader<T>>;

    fn into_iter(self) -> Iter<'a, Reader<T>> {
        self.iter()
    }
}

impl<T: Word> fmt::Debug for Reader<T> {
    fn fmt(&self, f: &mut fmt::Formatter<'_>) -> fmt::Result {
        f.debug_struct("Reader").finish_non_exhaustive()
    }
}
