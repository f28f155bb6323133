//! How an emission waits, by a task or by a thread, and what it comes to.

use crate::flow::{Flow, Verdict};
use crate::keep::{Slots, Storage};
use crate::queue::{Outcome, Queued};
use crate::sleepers::Sleeper;
use crate::waiting::sleep_until;
use std::error::Error;
use std::fmt;
use std::future::Future;
use std::hint;
use std::mem;
use std::pin::Pin;
use std::sync::Arc;
use std::task::{Context, Poll};
use std::thread;
use std::time::{Duration, Instant};

/// How often an emission tries before its thread sleeps.
const TRIES: u32 = 20;

/// What an emission came to.
#[derive(Clone, Copy, Debug, PartialEq, Eq)]
pub enum Emitted {
    /// It was accepted, with this number, counted up from [`first`](crate::Config::first).
    Accepted(u64),
    /// The policy dropped it: [`DropLatest`](crate::Policy::DropLatest) alone does that.
    Dropped,
}

/// Why a value wasn't emitted, with the value.
#[derive(Clone, Copy, PartialEq, Eq)]
pub enum EmitError<T> {
    /// The flow has ended.
    Ended(T),
    /// The numbers below 2^62 are used up.
    Spent(T),
}

/// Why a value wasn't emitted at once, with the value.
#[derive(Clone, Copy, PartialEq, Eq)]
pub enum TryEmitError<T> {
    /// It would have to wait.
    Full(T),
    /// The flow has ended.
    Ended(T),
    /// The numbers below 2^62 are used up.
    Spent(T),
}

/// Why a value wasn't emitted in some time, with the value.
#[derive(Clone, Copy, PartialEq, Eq)]
pub enum EmitTimeoutError<T> {
    /// The time was over, and the emission was taken back.
    Timeout(T),
    /// The flow has ended.
    Ended(T),
    /// The numbers below 2^62 are used up.
    Spent(T),
}

macro_rules! errors_with_a_value {
    ($($name:ident: $($reason:ident as $text:literal),*;)*) => {$(
        impl<T> $name<T> {
            /// The value.
            pub fn into_inner(self) -> T {
                match self {
                    $($name::$reason(value) => value,)*
                }
            }
        }

        impl<T> fmt::Debug for $name<T> {
            fn fmt(&self, f: &mut fmt::Formatter<'_>) -> fmt::Result {
                f.write_str(match self {
                    $($name::$reason(_) => concat!(stringify!($reason), "(..)"),)*
                })
            }
        }

        impl<T> fmt::Display for $name<T> {
            fn fmt(&self, f: &mut fmt::Formatter<'_>) -> fmt::Result {
                f.write_str(match self {
                    $($name::$reason(_) => $text,)*
                })
            }
        }

        impl<T> Error for $name<T> {}
    )*};
}

errors_with_a_value! {
    EmitError: Ended as "the flow has ended", Spent as "the numbers below 2^62 are used up";
    TryEmitError: Full as "the emission would have to wait", Ended as "the flow has ended",
        Spent as "the numbers below 2^62 are used up";
    EmitTimeoutError: Timeout as "there was no room in the time given", Ended as "the flow has ended",
        Spent as "the numbers below 2^62 are used up";
}

impl<T> From<EmitError<T>> for EmitTimeoutError<T> {
    fn from(error: EmitError<T>) -> EmitTimeoutError<T> {
        match error {
            EmitError::Ended(value) => EmitTimeoutError::Ended(value),
            EmitError::Spent(value) => EmitTimeoutError::Spent(value),
        }
    }
}

/// What a try came to, in the words of [`Sender::try_emit`](crate::Sender::try_emit).
pub(crate) fn tried<T>(verdict: Verdict, value: Option<T>) -> Result<Emitted, TryEmitError<T>> {
    let back = || value.expect("what isn't accepted stays where it was");
    match verdict {
        Verdict::Accepted(number) => Ok(Emitted::Accepted(number)),
        Verdict::Dropped => Ok(Emitted::Dropped),
        Verdict::Full => Err(TryEmitError::Full(back())),
        Verdict::Ended => Err(TryEmitError::Ended(back())),
        Verdict::Spent => Err(TryEmitError::Spent(back())),
    }
}

/// The same of one that waits where there is no room: then its value comes back.
fn begun<T>(verdict: Verdict, value: Option<T>) -> Result<Result<Emitted, EmitError<T>>, T> {
    match tried(verdict, value) {
        Ok(emitted) => Ok(Ok(emitted)),
        Err(TryEmitError::Full(value)) => Err(value),
        Err(TryEmitError::Ended(value)) => Ok(Err(EmitError::Ended(value))),
        Err(TryEmitError::Spent(value)) => Ok(Err(EmitError::Spent(value))),
    }
}

fn told<T>(outcome: Outcome<T>) -> Result<Emitted, EmitError<T>> {
    match outcome {
        Outcome::Accepted(number) => Ok(Emitted::Accepted(number)),
        Outcome::Dropped => Ok(Emitted::Dropped),
        Outcome::Ended(value) => Err(EmitError::Ended(value)),
        Outcome::Spent(value) => Err(EmitError::Spent(value)),
    }
}

enum Step<T> {
    First { word: u64, value: T },
    Waits(Arc<Queued<T>>),
    Done,
}

/// An emission by a task: what [`Sender::emit`](crate::Sender::emit) gives.
///
/// It begins where it is polled first. Where it has to wait it stands in the line of the flow, behind those that came
/// before it, and is accepted in its turn, by whoever makes room, also while its task isn't polled. Where it is dropped
/// before that, it is taken back, and its value with it: Kotlin's `emit`, cancelled. Who has to know what became of it puts
/// `&mut emission` into a `select!`, and calls [`withdraw`](Emission::withdraw) where that took something else. One that is
/// forgotten (`mem::forget`) stays in the line, and is accepted in its turn, or withdrawn at the flow's end.
#[must_use = "an emission begins where it is polled"]
pub struct Emission<'a, T, S: Storage<T> = Slots> {
    flow: &'a Flow<T, S>,
    step: Step<T>,
}

// What it has is moved, and never pinned.
impl<T, S: Storage<T>> Unpin for Emission<'_, T, S> {}

impl<'a, T, S: Storage<T>> Emission<'a, T, S> {
    pub(crate) fn new(flow: &'a Flow<T, S>, value: T) -> Emission<'a, T, S> {
        let word = S::word(&value);
        Emission {
            flow,
            step: Step::First { word, value },
        }
    }

    /// Takes the emission back: Kotlin's `emit`, cancelled. Gives its value, also where the flow has ended meanwhile, or
    /// what came of it where it was accepted before.
    ///
    /// # Panics
    /// Where it was polled until it was done.
    pub fn withdraw(mut self) -> Result<T, Emitted> {
        let queued = match mem::replace(&mut self.step, Step::Done) {
            Step::First { value, .. } => return Ok(value),
            Step::Waits(queued) => queued,
            Step::Done => panic!("an emission that is done is taken back"),
        };
        if let Some(value) = self.flow.withdraw(&queued) {
            return Ok(value);
        }
        let outcome = queued.outcome();
        match told(outcome.expect("what doesn't wait any more is done")) {
            Ok(emitted) => Err(emitted),
            Err(error) => Ok(error.into_inner()),
        }
    }

    // Tries, and puts the emission in the line where there is no room; done where it needn't wait.
    fn begin(
        &mut self,
        word: u64,
        value: T,
        waker: Sleeper,
    ) -> Option<Result<Emitted, EmitError<T>>> {
        let queued = Arc::new(Queued::new(word, value, waker));
        // First: code of others that runs at the end of the next call may panic.
        self.step = Step::Waits(Arc::clone(&queued));
        self.flow.queue(&queued);
        queued.outcome().map(|outcome| self.done(outcome))
    }

    fn done(&mut self, outcome: Outcome<T>) -> Result<Emitted, EmitError<T>> {
        self.step = Step::Done;
        told(outcome)
    }
}

impl<T, S: Storage<T>> Future for Emission<'_, T, S> {
    type Output = Result<Emitted, EmitError<T>>;

    fn poll(mut self: Pin<&mut Self>, context: &mut Context<'_>) -> Poll<Self::Output> {
        let (word, value) = match mem::replace(&mut self.step, Step::Done) {
            Step::First { word, value } => (word, value),
            Step::Waits(queued) => {
                let polled = queued.poll(context);
                self.step = Step::Waits(queued);
                return polled.map(|outcome| self.done(outcome));
            }
            Step::Done => panic!("an emission that is done is polled again"),
        };
        let mut value = Some(value);
        let verdict = self.flow.try_emit(word, &mut value);
        match begun(verdict, value) {
            Ok(done) => Poll::Ready(done),
            Err(value) => {
                let waker = Sleeper::Task(context.waker().clone());
                self.begin(word, value, waker)
                    .map_or(Poll::Pending, Poll::Ready)
            }
        }
    }
}

impl<T, S: Storage<T>> Drop for Emission<'_, T, S> {
    fn drop(&mut self) {
        if let Step::Waits(queued) = &self.step {
            drop(self.flow.withdraw(queued));
        }
    }
}

impl<T, S: Storage<T>> fmt::Debug for Emission<'_, T, S> {
    fn fmt(&self, f: &mut fmt::Formatter<'_>) -> fmt::Result {
        f.debug_struct("Emission").finish_non_exhaustive()
    }
}

/// Emits a value on this thread, which sleeps where there is no room, until a moment where there is one.
pub(crate) fn emit_until<T, S: Storage<T>>(
    flow: &Flow<T, S>,
    value: T,
    end: Option<Instant>,
) -> Result<Emitted, EmitTimeoutError<T>> {
    let word = S::word(&value);
    let mut value = value;
    for _ in 0..TRIES {
        let mut tried = Some(value);
        let verdict = flow.try_emit(word, &mut tried);
        match begun(verdict, tried) {
            Ok(done) => return done.map_err(EmitTimeoutError::from),
            Err(back) => value = back,
        }
        hint::spin_loop();
    }
    let queued = Arc::new(Queued::new(word, value, Sleeper::Thread(thread::current())));
    // It is taken back by this where code of others panics that the next call runs at its end.
    let mut emit = Emission {
        flow,
        step: Step::Waits(Arc::clone(&queued)),
    };
    flow.queue(&queued);
    let outcome = loop {
        if let Some(outcome) = queued.outcome() {
            break outcome;
        }
        if !sleep_until(end) {
            if let Some(value) = flow.withdraw(&queued) {
                emit.step = Step::Done;
                return Err(EmitTimeoutError::Timeout(value));
            }
        }
    };
    emit.step = Step::Done;
    told(outcome).map_err(EmitTimeoutError::from)
}

/// A moment after so long a time. Nothing where no clock can tell it.
pub(crate) fn moment_after(time: Duration) -> Option<Instant> {
    Instant::now().checked_add(time)
}
