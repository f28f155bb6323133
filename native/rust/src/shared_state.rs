//! A shared flow on one thread.

use crate::answers::{Begun, Emit, FlowId, Next, SubId, Ticket, Tried, Withdrawn};
use crate::blocks::{add_all, emit_all, Room, BLOCK};
use crate::config::Config;
use crate::raw::{self, Handle, RawConfig};
use crate::refusal::Refusal;
use crate::reply::Reply;
use crate::word::Word;
use std::fmt;
use std::marker::PhantomData;

/// The words that the library is handed of a prelude: one more than it takes, so that it is the one to refuse.
const PRELUDE: usize = 17;

/// A shared flow on one thread: Kotlin's `MutableSharedFlow`, with each of its suspensions an answer that the caller
/// sees.
///
/// An accepted emission gets the next number. Its value joins the replay cache, and is pending for each live
/// subscription until that receives or loses it. It never completes, takes all its memory when it is made, and wakes
/// nobody.
///
/// ```
/// use hillgauze::{Config, Next, SharedState, Tried};
///
/// let mut flow = SharedState::new(Config { replay: 1, extra: 1, ..Config::default() })?;
/// assert_eq!(flow.try_emit(0, 7)?, Tried::Accepted(0));
/// let late = flow.subscribe()?;
/// assert_eq!(flow.try_emit(0, 8)?, Tried::Accepted(1));
/// assert_eq!(flow.try_emit(0, 9)?, Tried::Full);
/// assert_eq!(flow.next(late), Next::Value(7));
/// assert_eq!(flow.next(late), Next::Value(8));
/// assert_eq!(flow.next(late), Next::Nothing);
/// # Ok::<(), hillgauze::Refusal>(())
/// ```
pub struct SharedState<T: Word> {
    handle: Handle<raw::Shared>,
    flow: FlowId,
    room: Room,
    values: PhantomData<T>,
}

impl<T: Word> SharedState<T> {
    /// A flow without subscriptions: `MutableSharedFlow(replay, extraBufferCapacity, onBufferOverflow)`.
    ///
    /// Refused, in this order: `TooLarge`, `PolicyNeedsBuffer`, `BadLimit`, `NoMemory`.
    pub fn new(config: Config) -> Result<SharedState<T>, Refusal> {
        let handle = Handle::null();
        let config = RawConfig::of(config);
        // SAFETY: the handle is null, and both pointers are good for the call.
        unsafe { raw::hillgauze_shared_new(handle.at(), &config) }
            .granted()?
            .done();
        Ok(SharedState {
            handle,
            flow: FlowId::next(),
            room: Room::default(),
            values: PhantomData,
        })
    }

    /// Emits a value where that can be done at once: Kotlin's `tryEmit`, with three answers.
    ///
    /// `Full` (under `Suspend` alone) where the emission would have to wait; `Dropped` under `DropLatest` alone. Refused
    /// as `Spent` where the numbers are used up.
    ///
    /// In a flow without places, where `replay` and `extra` are both 0, it is `Full` for as long as somebody is
    /// subscribed, however much is received: there a value is handed over by [`start_emit`](SharedState::start_emit)
    /// alone. With places it stays `Full` until the slowest subscription receives or ends.
    ///
    /// `emitter` is a number of your own for who emits, as the theorems tell emitters apart. It has no part in any answer,
    /// and nobody receives it: 0 serves.
    pub fn try_emit(&mut self, emitter: u32, value: T) -> Result<Tried, Refusal> {
        // SAFETY: the handle is live, and no other call has it.
        let reply =
            unsafe { raw::hillgauze_shared_try_emit(self.handle.at(), emitter, value.to_word()) };
        Ok(reply.granted()?.tried())
    }

    /// Tries to emit these values, one after another, up to the first that isn't accepted, and answers how many were:
    /// Kotlin's `tryEmit` in a loop.
    ///
    /// Refused as `Spent` where the first one is. Each is accepted, dropped or held up as by
    /// [`try_emit`](SharedState::try_emit):
    ///
    /// ```
    /// use hillgauze::{Config, Next, SharedState};
    ///
    /// let mut flow = SharedState::new(Config { extra: 3, ..Config::default() })?;
    /// let only = flow.subscribe()?;
    /// assert_eq!(flow.try_emit_all(0, &[7, 8, 9, 10, 11])?, 3);
    /// let mut values = Vec::new();
    /// assert_eq!(flow.try_next_all(only, &mut values, 2), Next::Value(2));
    /// assert_eq!(flow.try_next_all(only, &mut values, 2), Next::Value(1));
    /// assert_eq!(flow.try_next_all(only, &mut values, 2), Next::Nothing);
    /// assert_eq!(values, [7, 8, 9]);
    /// # Ok::<(), hillgauze::Refusal>(())
    /// ```
    pub fn try_emit_all(&mut self, emitter: u32, values: &[T]) -> Result<u64, Refusal> {
        emit_all(values, |words| {
            let (words, count) = (words.as_ptr(), words.len());
            // SAFETY: the handle is live, no other call has it, and there are `count` words.
            let reply = unsafe {
                raw::hillgauze_shared_try_emit_all(self.handle.at(), emitter, words, count)
            };
            reply.granted().map(Reply::count)
        })
    }

    /// Begins an emission: Kotlin's `emit`, up to where it suspends.
    ///
    /// `Waiting` gives a ticket for an emission that isn't finished. It is out until `poll_emit` answers `Done` or
    /// `cancel_emit` takes it back. Refused as `Spent` where the numbers of emissions or of tickets are used up, then
    /// as `EmitsFull` where a ticket is needed and each is out.
    pub fn start_emit(&mut self, emitter: u32, value: T) -> Result<Begun, Refusal> {
        // SAFETY: the handle is live, and no other call has it.
        let reply =
            unsafe { raw::hillgauze_shared_start_emit(self.handle.at(), emitter, value.to_word()) };
        Ok(reply.granted()?.begun(self.flow))
    }

    /// Asks whether an emission is finished: Kotlin's `emit`, where it resumes. `Done` takes the ticket back.
    pub fn poll_emit(&mut self, ticket: Ticket) -> Emit {
        let Some(ticket) = ticket.of(self.flow) else {
            return Emit::Gone;
        };
        // SAFETY: the handle is live, and no other call has it.
        unsafe { raw::hillgauze_shared_poll_emit(self.handle.at(), ticket) }.emit()
    }

    /// Gives an emission up and takes its ticket back: Kotlin's `emit`, cancelled while it is suspended.
    pub fn cancel_emit(&mut self, ticket: Ticket) -> Withdrawn {
        let Some(ticket) = ticket.of(self.flow) else {
            return Withdrawn::Gone;
        };
        // SAFETY: the handle is live, and no other call has it.
        unsafe { raw::hillgauze_shared_cancel_emit(self.handle.at(), ticket) }.withdrawn()
    }

    /// A new subscription, which begins at the oldest value of the replay cache: Kotlin's `collect`, as it begins.
    ///
    /// Refused as `Spent` where the numbers of subscriptions are used up, then as `SubscribersFull`.
    pub fn subscribe(&mut self) -> Result<SubId, Refusal> {
        // SAFETY: the handle is live, and no other call has it.
        let reply = unsafe { raw::hillgauze_shared_subscribe(self.handle.at()) };
        Ok(SubId::new(self.flow, reply.granted()?.made()))
    }

    /// A new subscription, which receives these values before all others, and alone: Kotlin's `onSubscription`.
    ///
    /// Refused as `PreludeTooLong` where there are over 16, then as `subscribe` is.
    pub fn subscribe_with(&mut self, prelude: &[T]) -> Result<SubId, Refusal> {
        let mut words = [0; PRELUDE];
        let count = prelude.len().min(PRELUDE);
        for (word, value) in words.iter_mut().zip(prelude) {
            *word = value.to_word();
        }
        // SAFETY: the handle is live, no other call has it, and there are at least `count` words.
        let reply = unsafe {
            raw::hillgauze_shared_subscribe_with(self.handle.at(), words.as_ptr(), count)
        };
        Ok(SubId::new(self.flow, reply.granted()?.made()))
    }

    /// Receives the oldest value that the subscription has pending: Kotlin's `collect`, for one value. After it
    /// emissions that wait are accepted while there is room.
    pub fn next(&mut self, subscription: SubId) -> Next<T> {
        let Some(subscription) = subscription.of(self.flow) else {
            return Next::Closed;
        };
        // SAFETY: the handle is live, and no other call has it.
        unsafe { raw::hillgauze_shared_next(self.handle.at(), subscription) }.next()
    }

    /// Receives the oldest values that the subscription has pending, one after another, `most` of them at most, and adds
    /// them to `values`: Kotlin's `collect`, for several values.
    ///
    /// `Value` tells how many came. Else `Nothing` and `Closed` come as by [`next`](SharedState::next), where it would
    /// answer so at once. Where `most` is 0 it asks for nothing, and answers `Value(0)`.
    pub fn try_next_all(
        &mut self,
        subscription: SubId,
        values: &mut Vec<T>,
        most: usize,
    ) -> Next<u64> {
        let Some(subscription) = subscription.of(self.flow) else {
            return if most == 0 {
                Next::Value(0)
            } else {
                Next::Closed
            };
        };
        let block = self.room.words();
        let mut left = most;
        loop {
            let (words, room) = (block.as_mut_ptr(), left.min(BLOCK));
            // SAFETY: the handle is live, no other call has it, and there are at least `room` words, all of them set.
            let reply = unsafe {
                raw::hillgauze_shared_try_next_all(self.handle.at(), subscription, words, room)
            };
            match reply.received() {
                Next::Value(count) => {
                    add_all(values, &block[..count as usize]);
                    left -= count as usize;
                    if left == 0 || count < room as u64 {
                        return Next::Value((most - left) as u64);
                    }
                }
                none if left == most => return none,
                _ => return Next::Value((most - left) as u64),
            }
        }
    }

    /// Ends a subscription and gives up what it has pending: Kotlin's `collect`, cancelled. Answers whether it was
    /// live.
    pub fn cancel(&mut self, subscription: SubId) -> bool {
        let Some(subscription) = subscription.of(self.flow) else {
            return false;
        };
        // SAFETY: the handle is live, and no other call has it.
        unsafe { raw::hillgauze_shared_cancel(self.handle.at(), subscription) }.was_live()
    }

    /// How many values the subscription has pending; 0 where it isn't live.
    pub fn pending(&self, subscription: SubId) -> u64 {
        let Some(subscription) = subscription.of(self.flow) else {
            return 0;
        };
        // SAFETY: the handle is live, and no other call has it.
        unsafe { raw::hillgauze_shared_pending(self.handle.at(), subscription) }.count()
    }

    /// How many subscriptions are live: Kotlin's `subscriptionCount`, as a plain number.
    pub fn subscription_count(&self) -> u32 {
        // SAFETY: the handle is live, and no other call has it.
        unsafe { raw::hillgauze_shared_count(self.handle.at()) }.small_count()
    }

    /// Empties the replay cache: Kotlin's `resetReplayCache`. Subscriptions keep what they have pending.
    pub fn reset_replay(&mut self) {
        // SAFETY: the handle is live, and no other call has it.
        unsafe { raw::hillgauze_shared_reset(self.handle.at()) }.done();
    }

    /// How many values the replay cache holds.
    pub fn replay_len(&self) -> u64 {
        // SAFETY: the handle is live, and no other call has it.
        unsafe { raw::hillgauze_shared_cache_len(self.handle.at()) }.count()
    }

    /// The value of the replay cache at an index, counted from the oldest on: one of Kotlin's `replayCache`.
    pub fn replay_at(&self, index: u64) -> Option<T> {
        // SAFETY: the handle is live, and no other call has it.
        unsafe { raw::hillgauze_shared_cache_at(self.handle.at(), index) }.value()
    }
}

impl<T: Word> fmt::Debug for SharedState<T> {
    fn fmt(&self, f: &mut fmt::Formatter<'_>) -> fmt::Result {
        f.debug_struct("SharedState").finish_non_exhaustive()
    }
}
