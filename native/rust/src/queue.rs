//! An emission that waits for room, and what came of it.

use crate::after::After;
use crate::sleepers::Sleeper;
use std::mem;
use std::sync::{Mutex, MutexGuard, PoisonError};
use std::task::{Context, Poll};

/// What came of an emission.
pub(crate) enum Outcome<T> {
    /// It was accepted with this number.
    Accepted(u64),
    /// The policy dropped it.
    Dropped,
    /// The flow has ended.
    Ended(T),
    /// The numbers are used up.
    Spent(T),
}

enum Stand<T> {
    /// It waits. Its value is here, unless the flow's store has it by now.
    Waits {
        value: Option<T>,
        sleeper: Sleeper,
    },
    Done(Outcome<T>),
    /// The outcome was told.
    Told,
}

/// An emission that waits. The flow's line and who waits for it share it, so that one who forgets to wait leaves no more
/// behind than this.
pub(crate) struct Queued<T> {
    pub(crate) word: u64,
    // Taken under the flow's lock or alone, never the other way round; no code of others runs under it.
    stand: Mutex<Stand<T>>,
}

impl<T> Queued<T> {
    pub(crate) fn new(word: u64, value: T, sleeper: Sleeper) -> Queued<T> {
        let value = Some(value);
        Queued {
            word,
            stand: Mutex::new(Stand::Waits { value, sleeper }),
        }
    }

    fn lock(&self) -> MutexGuard<'_, Stand<T>> {
        self.stand.lock().unwrap_or_else(PoisonError::into_inner)
    }

    /// The value, where it is here.
    pub(crate) fn take_value(&self) -> Option<T> {
        match &mut *self.lock() {
            Stand::Waits { value, .. } => value.take(),
            Stand::Done(_) | Stand::Told => None,
        }
    }

    /// Puts here what is left of a value that was given to the flow's store.
    pub(crate) fn keep(&self, rest: Option<T>) {
        if let Stand::Waits { value, .. } = &mut *self.lock() {
            *value = rest;
        }
    }

    /// It waits no more: who waits for it is to be woken.
    pub(crate) fn finish(&self, outcome: Outcome<T>, after: &mut After<'_, T>) {
        let before = mem::replace(&mut *self.lock(), Stand::Done(outcome));
        if let Stand::Waits { value, sleeper } = before {
            after.wake(sleeper);
            after.let_go(value);
        }
    }

    /// The outcome, where there is one; it is told once.
    pub(crate) fn outcome(&self) -> Option<Outcome<T>> {
        let mut stand = self.lock();
        if let Stand::Waits { .. } = *stand {
            return None;
        }
        match mem::replace(&mut *stand, Stand::Told) {
            Stand::Done(outcome) => Some(outcome),
            Stand::Waits { .. } | Stand::Told => {
                unreachable!("an outcome is asked for until it is told")
            }
        }
    }

    /// The outcome; where there is none yet, this task is woken when there is.
    pub(crate) fn poll(&self, context: &mut Context<'_>) -> Poll<Outcome<T>> {
        // Wakers are cloned and let go outside the lock, since that may run code of others.
        let mut waker = Sleeper::Task(context.waker().clone());
        if let Stand::Waits { sleeper, .. } = &mut *self.lock() {
            mem::swap(sleeper, &mut waker);
            return Poll::Pending;
        }
        self.outcome().map_or(Poll::Pending, Poll::Ready)
    }
}
