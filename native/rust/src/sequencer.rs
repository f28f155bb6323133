//! The one party of a lane that emits.

use crate::answers::{Begun, Emit, Ticket, Tried, Withdrawn};
use crate::blocks::emit_all;
use crate::config::Config;
use crate::lane::Lane;
use crate::reader::Reader;
use crate::refusal::Refusal;
use crate::sleepers::Emitter;
use crate::word::Word;
use std::fmt;
use std::marker::PhantomData;

/// The one party of a lane that emits, on one thread at a time: Kotlin's `MutableSharedFlow`, whose subscribers are
/// [`Reader`]s on threads of their own. None of its calls waits for room. A call takes a lock only where a receiver sleeps:
/// then it takes their list, and wakes each on its own thread, by wakers that may be code of others.
///
/// Where several threads emit, or an emission is to wait for room, a [`Sender`](crate::Sender) has what that takes. When
/// the sequencer is dropped nobody emits any more, and what waits with a ticket is gone: readers take what was accepted,
/// and then have ended.
///
/// ```
/// use hillgauze::{Config, Sequencer, Tried};
/// use std::thread;
///
/// let mut sequencer = Sequencer::new(Config { extra: 4, ..Config::default() })?;
/// let mut reader = sequencer.admit()?;
/// let summing = thread::spawn(move || {
///     let mut sum = 0;
///     while let Some(value) = reader.recv_blocking() {
///         sum += value;
///     }
///     sum
/// });
/// for value in 1..=100u64 {
///     while sequencer.try_emit(0, value)? == Tried::Full {
///         thread::yield_now();
///     }
/// }
/// drop(sequencer);
/// assert_eq!(summing.join().unwrap(), 5050);
/// # Ok::<(), hillgauze::Refusal>(())
/// ```
pub struct Sequencer<T: Word> {
    lane: Lane,
    emitter: Emitter,
    /// How many tickets are out. Where there is none nothing waits, so a call accepts its own emission or none.
    tickets: u32,
    values: PhantomData<T>,
}

impl<T: Word> Sequencer<T> {
    /// A lane where nothing was accepted and nobody reads: `MutableSharedFlow(replay, extraBufferCapacity,
    /// onBufferOverflow)`.
    ///
    /// Refused, in this order: `TooLarge`, `PolicyNeedsBuffer`, `BadLimit`, `NoMemory`.
    pub fn new(config: Config) -> Result<Sequencer<T>, Refusal> {
        Ok(Sequencer {
            lane: Lane::new(config)?,
            emitter: Emitter::first(),
            tickets: 0,
            values: PhantomData,
        })
    }

    /// Emits where there is room, after the emissions that wait: Kotlin's `tryEmit`, with three answers.
    ///
    /// It first accepts waiting emissions, and what it accepted stands whatever it answers. `Full` (under `Suspend`
    /// alone) where an emission waits still or some reader is too far behind, `Dropped` under `DropLatest` alone. Under
    /// `DropOldest` a reader that is too far behind loses its oldest value. Refused as `Spent` where the numbers are
    /// used up.
    ///
    /// On a lane without places, where `replay` and `extra` are both 0, it is `Full` for as long as somebody reads,
    /// however much is received, so a loop of tries never ends there: a value is handed over by
    /// [`start_emit`](Sequencer::start_emit) alone. With places it stays `Full` until the slowest reader receives or is
    /// closed.
    ///
    /// `emitter` is a number of your own for who emits, as the theorems tell emitters apart. It has no part in any answer,
    /// and nobody receives it: 0 serves.
    pub fn try_emit(&mut self, emitter: u32, value: T) -> Result<Tried, Refusal> {
        let tried = self.lane.try_emit(emitter, value.to_word());
        if self.tickets > 0 || matches!(tried, Ok(Tried::Accepted(_))) {
            self.emitter.wake_all();
        }
        tried
    }

    /// Emits these values in order, up to the first that isn't accepted, and answers how many were: what
    /// [`try_emit`](Sequencer::try_emit) of one after another comes to, but one look at the readers serves for as many
    /// as there is room for.
    ///
    /// It first accepts waiting emissions, and what it accepted stands whatever it answers. Under `Suspend` it stops
    /// where a try would be `Full`, under `DropLatest` where one would be `Dropped`; under `DropOldest` all are
    /// accepted, and each reader loses what it would have lost. Refused as `Spent` where the numbers are used up and
    /// none was accepted.
    ///
    /// ```
    /// use hillgauze::{Config, Policy, Sequencer};
    ///
    /// let config = Config { extra: 3, policy: Policy::DropLatest, ..Config::default() };
    /// let mut sequencer = Sequencer::new(config)?;
    /// let mut reader = sequencer.admit()?;
    /// assert_eq!(sequencer.try_emit_all(0, &['a', 'b', 'c', 'd', 'e'])?, 3);
    /// let mut values = Vec::new();
    /// assert_eq!(reader.recv_many_blocking(&mut values, 10), 3);
    /// assert_eq!(values, ['a', 'b', 'c']);
    /// # Ok::<(), hillgauze::Refusal>(())
    /// ```
    pub fn try_emit_all(&mut self, emitter: u32, values: &[T]) -> Result<u64, Refusal> {
        emit_all(values, |words| {
            let accepted = self.lane.try_emit_all(emitter, words);
            // After each block: code of others, which makes words of the next one, may panic.
            if self.tickets > 0 || matches!(accepted, Ok(1..)) {
                self.emitter.wake_all();
            }
            accepted
        })
    }

    /// Begins an emission, which gets a ticket where it isn't done at once: Kotlin's `emit`.
    ///
    /// It first accepts waiting emissions, and what it accepted stands whatever it answers. `Waiting` (under `Suspend`
    /// alone) where it waits for room, or, on a lane without places, until every reader has received it. Refused as
    /// `Spent` where the numbers of emissions or of tickets are used up, then as `EmitsFull` where it would need a
    /// ticket and all are out.
    pub fn start_emit(&mut self, emitter: u32, value: T) -> Result<Begun, Refusal> {
        let begun = self.lane.start_emit(emitter, value.to_word());
        if let Ok(Begun::Waiting(_)) = begun {
            self.tickets += 1;
        }
        if self.tickets > 0 || matches!(begun, Ok(Begun::Accepted(_))) {
            self.emitter.wake_all();
        }
        begun
    }

    /// Says whether an emission is done, and takes back the ticket of one that is: what Kotlin's `emit` waits for. It
    /// accepts nothing: [`scan`](Sequencer::scan) does.
    pub fn poll_emit(&mut self, ticket: Ticket) -> Emit {
        let emit = self.lane.poll_emit(ticket);
        if let Emit::Done(_) = emit {
            self.tickets -= 1;
        }
        emit
    }

    /// Takes back a ticket: what cancelling the caller of Kotlin's `emit` does. An emission that waits is withdrawn and
    /// was never accepted; one that was accepted stays with the readers.
    pub fn cancel_emit(&mut self, ticket: Ticket) -> Withdrawn {
        let withdrawn = self.lane.cancel_emit(ticket);
        if withdrawn != Withdrawn::Gone {
            self.tickets -= 1;
        }
        withdrawn
    }

    /// Accepts waiting emissions, the oldest first, while there is room, and answers how many.
    pub fn scan(&mut self) -> u32 {
        let settled = self.lane.scan();
        if settled > 0 {
            self.emitter.wake_all();
        }
        settled
    }

    /// Admits a reader. It begins at the oldest value of the replay cache, and goes on with every later accepted one:
    /// what Kotlin's `collect` begins with.
    ///
    /// Refused as `NoMemory`, as `Spent` where the numbers of readers are used up, then as `SubscribersFull`.
    pub fn admit(&mut self) -> Result<Reader<T>, Refusal> {
        Ok(Reader::over(self.lane.admit()?, self.emitter.sleepers()))
    }

    /// How many readers there are, as this call finds them: Kotlin's `subscriptionCount`, as a plain number.
    pub fn live(&self) -> u32 {
        self.lane.live()
    }

    /// Empties the replay cache: Kotlin's `resetReplayCache`. Readers keep what they have pending.
    pub fn reset_replay(&mut self) {
        self.lane.reset_replay();
    }

    /// How many values the replay cache holds.
    pub fn replay_len(&self) -> u64 {
        self.lane.replay_len()
    }

    /// The value of the replay cache at an index, counted from the oldest on: one of Kotlin's `replayCache`.
    pub fn replay_at(&self, index: u64) -> Option<T> {
        self.lane.replay_at(index)
    }
}

impl<T: Word> fmt::Debug for Sequencer<T> {
    fn fmt(&self, f: &mut fmt::Formatter<'_>) -> fmt::Result {
        f.debug_struct("Sequencer").finish_non_exhaustive()
    }
}
