//! Who emits to a shared flow that several threads share.

use crate::blocks::emit_all;
use crate::config::Config;
use crate::emitting::{
    emit_until, moment_after, tried, Emission, EmitError, EmitTimeoutError, Emitted, TryEmitError,
};
use crate::flow::Flow;
use crate::keep::{Slots, Storage, Words};
use crate::receiver::Receiver;
use crate::refusal::Refusal;
use crate::word::Word;
use std::fmt;
use std::sync::Arc;
use std::time::Duration;

/// Who emits to a shared flow: Kotlin's `MutableSharedFlow`, tokio's `broadcast::Sender`. Any number of threads and tasks
/// share it, by reference or by clones; the lock is inside, and is taken by who emits, never by who receives a value while
/// nobody waits for room. Wakers run after it is given back.
///
/// Values are of any type that is `Clone`, and lie in slots beside the lane. Where they are [`Word`]s,
/// [`of_words`](Sender::of_words) makes a flow whose lane has them, which costs less.
///
/// Where some receiver has no room, the [`Policy`](crate::Policy) decides: an emission waits, the receiver loses its
/// oldest value, or the new value is dropped. Those that wait are accepted in the order in which they began to.
///
/// The flow ends once no sender is left, or by [`close`](Sender::close): its receivers take what was accepted, and then
/// have ended. So one that receives until the end drops its own sender first. Kotlin's flows never end.
///
/// ```
/// use hillgauze::{Config, Sender};
/// use std::thread;
///
/// let sender = Sender::new(Config { extra: 4, ..Config::default() })?;
/// let receiver = sender.subscribe()?;
/// let hearing = thread::spawn(move || receiver.into_iter().collect::<Vec<String>>());
/// for name in ["Ada", "Grace", "Emmy"] {
///     sender.emit_blocking(format!("hello, {name}"))?;
/// }
/// drop(sender);
/// assert_eq!(hearing.join().unwrap(), ["hello, Ada", "hello, Grace", "hello, Emmy"]);
/// # Ok::<(), Box<dyn std::error::Error>>(())
/// ```
///
/// A value is cloned under the lock of its slot, so a `clone` that calls the same flow may block for good. The last
/// receiver that is to get a value gets it without a clone. A value is let go once nobody is to get it: it was received by
/// all, or those left, and the replay cache hasn't got it any more. One that a receiver lost, under `DropOldest`, may be
/// kept until its slot is used again, some `replay + extra` emissions later.
pub struct Sender<T, S: Storage<T> = Slots> {
    flow: Arc<Flow<T, S>>,
}

impl<T: Clone> Sender<T> {
    /// A flow where nothing was emitted and nobody receives: `MutableSharedFlow(replay, extraBufferCapacity,
    /// onBufferOverflow)`. `emits` has no part in it: any number of emissions may wait.
    ///
    /// Refused, in this order: `TooLarge`, `PolicyNeedsBuffer`, `BadLimit`, `NoMemory`.
    pub fn new(config: Config) -> Result<Sender<T>, Refusal> {
        Sender::over(config)
    }
}

impl<T: Word> Sender<T, Words> {
    /// The same, of values that are words.
    ///
    /// ```
    /// use hillgauze::{Config, Emitted, Sender};
    ///
    /// let sender = Sender::of_words(Config { replay: 1, ..Config::default() })?;
    /// assert_eq!(sender.try_emit(7u32)?, Emitted::Accepted(0));
    /// assert_eq!(sender.subscribe()?.try_recv(), Ok(7));
    /// # Ok::<(), Box<dyn std::error::Error>>(())
    /// ```
    pub fn of_words(config: Config) -> Result<Sender<T, Words>, Refusal> {
        Sender::over(config)
    }

    /// Emits these values in a row, up to the first for which there is no room or that the policy drops, and answers how
    /// many were accepted: 0 where an emission waits. One look at the receivers serves for up to 64 of them.
    ///
    /// Refused as `Spent` where the numbers are used up and none was accepted. After the flow's end none is accepted.
    pub fn try_emit_all(&self, values: &[T]) -> Result<u64, Refusal> {
        emit_all(values, |words| match self.flow.try_emit_all(words) {
            Err(Some(refusal)) => Err(refusal),
            Err(None) => Ok(0),
            Ok(accepted) => Ok(accepted),
        })
    }
}

impl<T, S: Storage<T>> Sender<T, S> {
    fn over(config: Config) -> Result<Sender<T, S>, Refusal> {
        let flow = Arc::new(Flow::new(config)?);
        Ok(Sender { flow })
    }

    /// Emits a value where that can be done at once: Kotlin's `tryEmit`, tokio's `send`. It is accepted also where nobody
    /// receives.
    ///
    /// `Full` (under `Suspend` alone) where an emission waits, or some receiver has no room. Without places, where
    /// `replay` and `extra` are both 0, it is `Full` for as long as there is a receiver: there a value is handed over by
    /// [`emit`](Sender::emit) and [`emit_blocking`](Sender::emit_blocking) alone.
    pub fn try_emit(&self, value: T) -> Result<Emitted, TryEmitError<T>> {
        let word = S::word(&value);
        let mut value = Some(value);
        let verdict = self.flow.try_emit(word, &mut value);
        tried(verdict, value)
    }

    /// Emits a value, by a task that waits where there is no room, and on a flow without places until all receivers have
    /// it: Kotlin's `emit`. It begins where it is polled first, and dropping it takes it back: see [`Emission`].
    ///
    /// ```
    /// use hillgauze::{Config, EmitError, Sender};
    ///
    /// async fn greet(sender: &Sender<String>) -> Result<(), EmitError<String>> {
    ///     sender.emit("hello".to_string()).await?;
    ///     sender.emit("good bye".to_string()).await?;
    ///     Ok(())
    /// }
    /// ```
    pub fn emit(&self, value: T) -> Emission<'_, T, S> {
        Emission::new(&self.flow, value)
    }

    /// The same by this thread, which sleeps meanwhile, after some tries. It isn't for tasks: they use
    /// [`emit`](Sender::emit).
    pub fn emit_blocking(&self, value: T) -> Result<Emitted, EmitError<T>> {
        emit_until(&self.flow, value, None).map_err(|error| match error {
            EmitTimeoutError::Ended(value) => EmitError::Ended(value),
            EmitTimeoutError::Spent(value) => EmitError::Spent(value),
            EmitTimeoutError::Timeout(_) => unreachable!("no time was given"),
        })
    }

    /// The same, for so long at most. Where the time is over the emission is taken back.
    pub fn emit_timeout(&self, value: T, most: Duration) -> Result<Emitted, EmitTimeoutError<T>> {
        emit_until(&self.flow, value, moment_after(most))
    }

    /// A new receiver. It begins at the oldest value of the replay cache, and goes on with every later accepted one: what
    /// Kotlin's `collect` begins with; without a replay cache, tokio's `subscribe`.
    ///
    /// Refused as `NoMemory`, as `Spent` where the numbers of receivers are used up, then as `SubscribersFull` where
    /// [`subscribers`](Config::subscribers) are there.
    pub fn subscribe(&self) -> Result<Receiver<T, S>, Refusal> {
        Receiver::admitted(&self.flow)
    }

    /// Ends the flow for all its senders. Emissions that wait are taken back, and give their values back as
    /// [`Ended`](EmitError::Ended); so is each later one. Receivers take what was accepted, and then have ended. Dropping
    /// the last sender does the same; Kotlin has no counterpart.
    pub fn close(&self) {
        self.flow.end();
    }

    /// Whether the flow has ended.
    pub fn is_closed(&self) -> bool {
        self.flow.is_ended()
    }

    /// How many receivers there are: Kotlin's `subscriptionCount`, as a plain number; tokio's `receiver_count`.
    pub fn receiver_count(&self) -> usize {
        self.flow.receivers()
    }

    /// How many emissions wait.
    pub fn waiting_count(&self) -> usize {
        self.flow.waiting()
    }

    /// How many values the replay cache holds.
    pub fn replay_len(&self) -> u64 {
        self.flow.replay_len()
    }

    /// Empties the replay cache: Kotlin's `resetReplayCache`. Receivers keep what they have pending.
    pub fn reset_replay(&self) {
        self.flow.reset_replay();
    }

    /// Whether both are senders of one flow: tokio's `same_channel`.
    pub fn is_same_flow(&self, other: &Sender<T, S>) -> bool {
        Arc::ptr_eq(&self.flow, &other.flow)
    }
}

impl<T, S: Storage<T>> Clone for Sender<T, S> {
    fn clone(&self) -> Sender<T, S> {
        self.flow.add_sender();
        Sender {
            flow: Arc::clone(&self.flow),
        }
    }
}

impl<T, S: Storage<T>> Drop for Sender<T, S> {
    fn drop(&mut self) {
        self.flow.drop_sender();
    }
}

impl<T, S: Storage<T>> fmt::Debug for Sender<T, S> {
    fn fmt(&self, f: &mut fmt::Formatter<'_>) -> fmt::Result {
        f.debug_struct("Sender").finish_non_exhaustive()
    }
}
