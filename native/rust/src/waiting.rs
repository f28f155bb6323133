//! How a receiver waits for its next value: a short spin, then a sleep. Outside the proof, as the sleepers are.

use crate::answers::Taken;
use crate::blocks::BLOCK;
use crate::sleepers::{Sleeper, Sleepers};
use std::cell::Cell;
use std::error::Error;
use std::fmt;
use std::future::Future;
use std::hint;
use std::pin::Pin;
use std::sync::Arc;
use std::task::{Context, Poll};
use std::thread;
use std::time::{Duration, Instant};

/// How often a receiver looks again before its thread sleeps.
const LOOKS: u32 = 100;

/// Why a wait with a time limit gave no value.
#[derive(Clone, Copy, Debug, PartialEq, Eq)]
pub enum RecvTimeoutError {
    /// The time was over.
    Timeout,
    /// Nobody is left who could emit, and each value was received or dropped.
    Ended,
}

impl fmt::Display for RecvTimeoutError {
    fn fmt(&self, f: &mut fmt::Formatter<'_>) -> fmt::Result {
        f.write_str(match self {
            RecvTimeoutError::Timeout => "nothing came in the time given",
            RecvTimeoutError::Ended => "nobody is left who could emit",
        })
    }
}

impl Error for RecvTimeoutError {}

/// What a look found.
pub enum Found<T> {
    Value(T),
    Nothing,
    Ended,
}

impl<T> Found<T> {
    fn value(self) -> Option<T> {
        match self {
            Found::Value(value) => Some(value),
            Found::Nothing | Found::Ended => None,
        }
    }
}

/// A receiver's place among the sleepers of its flow.
pub struct Berth {
    sleepers: Arc<Sleepers>,
    number: u64,
    /// Whether it may be listed: who never sleeps takes no lock for it.
    is_listed: Cell<bool>,
    /// Where it was listed last.
    place: Cell<usize>,
}

impl Berth {
    pub(crate) fn new(sleepers: &Arc<Sleepers>) -> Berth {
        Berth {
            sleepers: Arc::clone(sleepers),
            number: sleepers.number(),
            is_listed: Cell::new(false),
            place: Cell::new(0),
        }
    }

    pub(crate) fn sleepers(&self) -> &Arc<Sleepers> {
        &self.sleepers
    }

    fn list(&self, sleeper: Sleeper) {
        self.is_listed.set(true);
        let place = self.sleepers.list(self.number, sleeper, self.place.get());
        self.place.set(place);
    }

    /// Takes it off the list, where it may be there.
    pub(crate) fn strike(&self) {
        if self.is_listed.replace(false) {
            self.sleepers.strike(self.number, self.place.get());
        }
    }
}

impl Drop for Berth {
    fn drop(&mut self) {
        self.strike();
    }
}

/// One that receives values of a flow, and can wait for the next one.
pub trait Receive {
    type Item;

    fn berth(&self) -> &Berth;

    /// The next value, if there is one now.
    fn receive(&mut self) -> Option<Self::Item>;

    /// Looks for a value, and for the end where there is none. Whether it has ended is asked first, so that a value
    /// that was emitted before the end is found before it.
    fn look(&mut self) -> Found<Self::Item> {
        let ended = self.berth().sleepers.is_ended();
        match self.receive() {
            Some(value) => Found::Value(value),
            None if ended => Found::Ended,
            None => Found::Nothing,
        }
    }

    /// Lists the receiver as sleeping, and looks again: whoever finds nothing here may sleep, and will be woken. One
    /// that finds something is struck off.
    fn list_and_look(&mut self, sleeper: Sleeper) -> Found<Self::Item> {
        self.berth().list(sleeper);
        let found = self.look();
        if !matches!(found, Found::Nothing) {
            self.berth().strike();
        }
        found
    }

    /// Looks some times, with a pause of the processor between two looks.
    fn spin(&mut self) -> Found<Self::Item> {
        for _ in 1..LOOKS {
            match self.look() {
                Found::Nothing => hint::spin_loop(),
                found => return found,
            }
        }
        self.look()
    }

    /// Waits for the next value, until a moment where there is one. Many are woken at once, so who is looks first, and
    /// takes no lock of theirs where it finds something.
    fn wait_until(&mut self, end: Option<Instant>) -> Result<Self::Item, RecvTimeoutError> {
        let mut found = self.spin();
        while let Found::Nothing = found {
            found = self.list_and_look(Sleeper::Thread(thread::current()));
            if matches!(found, Found::Nothing) {
                if !sleep_until(end) {
                    self.berth().strike();
                    return Err(RecvTimeoutError::Timeout);
                }
                found = self.look();
            }
        }
        self.berth().strike();
        found.value().ok_or(RecvTimeoutError::Ended)
    }

    fn wait(&mut self) -> Option<Self::Item> {
        self.wait_until(None).ok()
    }

    fn wait_for(&mut self, most: Duration) -> Result<Self::Item, RecvTimeoutError> {
        // A moment that no clock can tell is never reached.
        self.wait_until(Instant::now().checked_add(most))
    }

    fn poll(&mut self, context: &mut Context<'_>) -> Poll<Option<Self::Item>> {
        let mut found = self.look();
        if let Found::Nothing = found {
            found = self.list_and_look(Sleeper::Task(context.waker().clone()));
        }
        match found {
            Found::Nothing => Poll::Pending,
            found => Poll::Ready(found.value()),
        }
    }
}

/// One that can receive several values at once.
pub trait ReceiveMany: Receive {
    /// Adds the next values, as many as are there, `most` of them and a block at most.
    fn receive_many(&mut self, values: &mut Vec<Self::Item>, most: usize) -> Taken<u64>;
}

/// One that receives several values at once, and tells how many.
pub(crate) struct Many<'a, R: ReceiveMany> {
    receiver: &'a mut R,
    values: &'a mut Vec<R::Item>,
    limit: usize,
}

impl<'a, R: ReceiveMany> Many<'a, R> {
    /// Where some are asked for.
    pub(crate) fn of(
        receiver: &'a mut R,
        values: &'a mut Vec<R::Item>,
        limit: usize,
    ) -> Option<Many<'a, R>> {
        (limit > 0).then_some(Many {
            receiver,
            values,
            limit,
        })
    }
}

impl<R: ReceiveMany> Receive for Many<'_, R> {
    type Item = usize;

    fn berth(&self) -> &Berth {
        self.receiver.berth()
    }

    fn receive(&mut self) -> Option<usize> {
        let mut left = self.limit;
        while left > 0 {
            match self.receiver.receive_many(self.values, left) {
                Taken::Value(count) => {
                    left -= count as usize;
                    if count < BLOCK as u64 {
                        break;
                    }
                }
                Taken::Nothing => break,
                Taken::Overtaken => {}
            }
        }
        (left < self.limit).then_some(self.limit - left)
    }
}

/// The receipt of a value by a task: what `recv` of a receiver, a reader or a collector gives.
#[must_use = "nothing is received before it is polled"]
pub struct Recv<'a, R: Receive>(&'a mut R);

impl<'a, R: Receive> Recv<'a, R> {
    pub(crate) fn by(receiver: &'a mut R) -> Recv<'a, R> {
        Recv(receiver)
    }
}

impl<R: Receive> Future for Recv<'_, R> {
    type Output = Option<R::Item>;

    fn poll(mut self: Pin<&mut Self>, context: &mut Context<'_>) -> Poll<Option<R::Item>> {
        self.0.poll(context)
    }
}

/// Its task isn't woken for it any more.
impl<R: Receive> Drop for Recv<'_, R> {
    fn drop(&mut self) {
        self.0.berth().strike();
    }
}

impl<R: Receive> fmt::Debug for Recv<'_, R> {
    fn fmt(&self, f: &mut fmt::Formatter<'_>) -> fmt::Result {
        f.debug_struct("Recv").finish_non_exhaustive()
    }
}

/// The receipt of several values by a task: what `recv_many` of a receiver or a reader gives.
#[must_use = "nothing is received before it is polled"]
pub struct RecvMany<'a, R: ReceiveMany>(Option<Many<'a, R>>);

impl<'a, R: ReceiveMany> RecvMany<'a, R> {
    pub(crate) fn by(
        receiver: &'a mut R,
        values: &'a mut Vec<R::Item>,
        limit: usize,
    ) -> RecvMany<'a, R> {
        RecvMany(Many::of(receiver, values, limit))
    }
}

impl<R: ReceiveMany> Future for RecvMany<'_, R> {
    type Output = usize;

    fn poll(mut self: Pin<&mut Self>, context: &mut Context<'_>) -> Poll<usize> {
        match &mut self.0 {
            Some(many) => many.poll(context).map(|count| count.unwrap_or(0)),
            None => Poll::Ready(0),
        }
    }
}

/// Its task isn't woken for it any more.
impl<R: ReceiveMany> Drop for RecvMany<'_, R> {
    fn drop(&mut self) {
        if let Some(many) = &self.0 {
            many.berth().strike();
        }
    }
}

impl<R: ReceiveMany> fmt::Debug for RecvMany<'_, R> {
    fn fmt(&self, f: &mut fmt::Formatter<'_>) -> fmt::Result {
        f.debug_struct("RecvMany").finish_non_exhaustive()
    }
}

/// Parks the thread until it is woken, or until a moment. False where that moment has come.
pub(crate) fn sleep_until(end: Option<Instant>) -> bool {
    let Some(end) = end else {
        thread::park();
        return true;
    };
    let left = end.saturating_duration_since(Instant::now());
    if left.is_zero() {
        return false;
    }
    thread::park_timeout(left);
    true
}

#[cfg(test)]
mod tests {
    use super::{Berth, Receive, RecvTimeoutError, LOOKS};
    use crate::sleepers::Emitter;
    use std::iter;
    use std::time::Duration;

    /// What a look finds, and what happens right after it.
    enum Look {
        Value(u32),
        Nothing,
        NothingThenEnd,
    }

    struct Looks<I> {
        berth: Berth,
        emitter: Option<Emitter>,
        looks: I,
    }

    impl<I: Iterator<Item = Look>> Receive for Looks<I> {
        type Item = u32;

        fn berth(&self) -> &Berth {
            &self.berth
        }

        fn receive(&mut self) -> Option<u32> {
            match self.looks.next()? {
                Look::Value(value) => return Some(value),
                Look::Nothing => {}
                Look::NothingThenEnd => self.emitter = None,
            }
            None
        }
    }

    fn looks(list: impl IntoIterator<Item = Look>) -> Looks<impl Iterator<Item = Look>> {
        let emitter = Emitter::first();
        Looks {
            berth: Berth::new(emitter.sleepers()),
            emitter: Some(emitter),
            looks: list.into_iter(),
        }
    }

    #[test]
    fn a_value_that_came_just_before_the_end_is_found() {
        let mut looks = looks([Look::NothingThenEnd, Look::Value(7)]);
        assert_eq!(looks.wait(), Some(7));
        assert_eq!(looks.wait(), None);
    }

    #[test]
    fn a_value_that_came_while_the_receiver_listed_itself_is_found() {
        let spun = iter::repeat_with(|| Look::Nothing).take(LOOKS as usize);
        let mut looks = looks(spun.chain([Look::Value(7)]));
        assert_eq!(looks.wait_for(Duration::ZERO), Ok(7));
        let late = looks.wait_for(Duration::ZERO);
        assert_eq!(late, Err(RecvTimeoutError::Timeout));
    }
}
