//! A shared flow that threads share: a lane, the lock of those who emit, and the line of the emissions that wait.
//!
//! Emissions wait in a line, in the order in which they came. The first one of the line is begun in the lane, which says
//! by its ticket when it is done; then the next one is. So the lane has one ticket out at most, the line needs no limit,
//! and the number of the emission that waits in the lane is known: the next one.
//!
//! Under the lock runs no code of others. What may run such code, wakers and the drops of values, is kept in an [`After`]
//! until the lock is given back. `gate.rs` says why no emission is forgotten, `sleepers.rs` why no receiver is.

use crate::after::After;
use crate::answers::{Begun, Emit, Ticket, Tried, Withdrawn};
use crate::config::Config;
use crate::gate::Gate;
use crate::keep::Storage;
use crate::lane::{Cursor, Lane};
use crate::queue::{Outcome, Queued};
use crate::refusal::Refusal;
use crate::sleepers::{Emitter, Sleepers};
use crate::slots::SlotStore;
use std::collections::VecDeque;
use std::marker::PhantomData;
use std::mem;
use std::ops::Range;
use std::sync::atomic::{AtomicUsize, Ordering::SeqCst};
use std::sync::{Arc, Mutex, MutexGuard, PoisonError};

/// What a try came to. Its value is where it was, but for `Accepted`.
#[derive(Clone, Copy)]
pub(crate) enum Verdict {
    Accepted(u64),
    Dropped,
    Full,
    Ended,
    Spent,
}

/// Where the first emission of the line stands.
enum First<T> {
    Done(Outcome<T>),
    Begun,
    Waits,
}

/// What those who emit have under their lock.
struct Emitting<T> {
    lane: Lane,
    /// The number of the next emission.
    next: u64,
    /// How many receivers there are.
    receivers: usize,
    /// Those that wait, the first one first.
    line: VecDeque<Arc<Queued<T>>>,
    /// The ticket of the first one, where it is begun.
    ticket: Option<Ticket>,
    /// There until the flow has ended.
    emitter: Option<Emitter>,
}

impl<T> Emitting<T> {
    /// The numbers from this one on, up to the last one that a receiver may still be told of.
    fn numbers_from(&self, first: u64) -> Range<u64> {
        first..self.next + u64::from(self.ticket.is_some())
    }
}

/// What has cache lines of its own: it is written at each emission, and what stands beside it is read at each receipt.
#[repr(align(128))]
struct Apart<T>(T);

/// A shared flow, shared by its senders and receivers.
pub(crate) struct Flow<T, S: Storage<T>> {
    gate: Gate,
    pub(crate) slots: SlotStore<T>,
    storage: PhantomData<fn() -> S>,
    sleepers: Arc<Sleepers>,
    senders: AtomicUsize,
    has_places: bool,
    emitting: Apart<Mutex<Emitting<T>>>,
}

impl<T, S: Storage<T>> Flow<T, S> {
    /// A flow with one sender.
    pub(crate) fn new(config: Config) -> Result<Flow<T, S>, Refusal> {
        // Those that wait do so in the line, so one ticket is enough.
        let lane = Lane::new(Config { emits: 1, ..config })?;
        let places = config.replay + config.extra;
        let emitter = Emitter::first();
        Ok(Flow {
            gate: Gate::new(places),
            slots: S::slots(places, config.replay),
            storage: PhantomData,
            sleepers: Arc::clone(emitter.sleepers()),
            senders: AtomicUsize::new(1),
            has_places: places > 0,
            emitting: Apart(Mutex::new(Emitting {
                lane,
                next: config.first,
                receivers: 0,
                line: VecDeque::new(),
                ticket: None,
                emitter: Some(emitter),
            })),
        })
    }

    pub(crate) fn sleepers(&self) -> &Arc<Sleepers> {
        &self.sleepers
    }

    // No code of others runs under the lock, so a panic leaves all whole.
    fn lock(&self) -> MutexGuard<'_, Emitting<T>> {
        self.emitting
            .0
            .lock()
            .unwrap_or_else(PoisonError::into_inner)
    }

    // Runs a step under the lock, and then does what it left to do.
    #[inline]
    fn locked<R>(&self, step: impl FnOnce(&mut Emitting<T>, &mut After<'_, T>) -> R) -> R {
        let mut after = After::new(&self.sleepers);
        // The lock is given back at the end of this statement, and `after` goes at the end of the function.
        let answer = step(&mut self.lock(), &mut after);
        answer
    }

    /// Emits where there is room.
    #[inline]
    pub(crate) fn try_emit(&self, word: u64, value: &mut Option<T>) -> Verdict {
        self.locked(|emitting, after| self.attempt(emitting, word, value, after))
    }

    fn attempt(
        &self,
        emitting: &mut Emitting<T>,
        word: u64,
        value: &mut Option<T>,
        after: &mut After<'_, T>,
    ) -> Verdict {
        if let Some(verdict) = self.come_first(emitting, after) {
            return verdict;
        }
        let number = emitting.next;
        let (word, before) = S::put(&self.slots, number, emitting.receivers, word, value);
        after.let_go(before);
        let verdict = match emitting.lane.try_emit(0, word) {
            Ok(Tried::Accepted(number)) => {
                self.accepted(emitting, number, after);
                return Verdict::Accepted(number);
            }
            Ok(Tried::Dropped) => Verdict::Dropped,
            Ok(Tried::Full) => Verdict::Full,
            Err(_spent) => Verdict::Spent,
        };
        S::take_back(&self.slots, number, value);
        verdict
    }

    // Accepts all that wait. Says what a try comes to where that can't be done, or the flow has ended.
    #[inline]
    fn come_first(&self, emitting: &mut Emitting<T>, after: &mut After<'_, T>) -> Option<Verdict> {
        if emitting.emitter.is_none() {
            return Some(Verdict::Ended);
        }
        if emitting.line.is_empty() {
            return None;
        }
        self.let_in(emitting, after);
        (!emitting.line.is_empty()).then_some(Verdict::Full)
    }

    /// Emits these words in a row where there is room, up to the first that isn't accepted.
    pub(crate) fn try_emit_all(&self, words: &[u64]) -> Result<u64, Option<Refusal>> {
        self.locked(|emitting, after| {
            match self.come_first(emitting, after) {
                None => {}
                Some(Verdict::Ended) => return Err(None),
                Some(_full) => return Ok(0),
            }
            let accepted = emitting.lane.try_emit_all(0, words)?;
            emitting.next += accepted;
            if accepted > 0 {
                after.accepted();
            }
            Ok(accepted)
        })
    }

    #[inline]
    fn accepted(&self, emitting: &mut Emitting<T>, number: u64, after: &mut After<'_, T>) {
        emitting.next = number + 1;
        after.let_go(S::settle(&self.slots, number, emitting.receivers));
        after.accepted();
    }

    /// Puts an emission at the end of the line, and accepts what it can.
    pub(crate) fn queue(&self, queued: &Arc<Queued<T>>) {
        self.locked(|emitting, after| {
            if emitting.emitter.is_none() {
                let outcome = queued.take_value().map(Outcome::Ended);
                queued.finish(outcome.expect("it waits, with its value"), after);
                return;
            }
            emitting.line.push_back(Arc::clone(queued));
            if emitting.line.len() == 1 {
                self.let_in(emitting, after);
            }
        });
    }

    // Accepts the emissions of the line, the first one first, as far as there is room. Where one waits still, the gate was
    // closed for it before the last look.
    fn let_in(&self, emitting: &mut Emitting<T>, after: &mut After<'_, T>) {
        while let Some(first) = emitting.line.front().map(Arc::clone) {
            let stand = match emitting.ticket {
                None => self.begin(emitting, &first, after),
                Some(ticket) => self.look_at(emitting, ticket, after),
            };
            match stand {
                First::Begun => {}
                First::Waits => return,
                First::Done(outcome) => {
                    emitting.line.pop_front();
                    first.finish(outcome, after);
                }
            }
        }
        self.gate.open();
    }

    // Begins the first emission of the line in the lane.
    fn begin(
        &self,
        emitting: &mut Emitting<T>,
        first: &Queued<T>,
        after: &mut After<'_, T>,
    ) -> First<T> {
        let number = emitting.next;
        let mut value = first.take_value();
        let (word, before) = S::put(
            &self.slots,
            number,
            emitting.receivers,
            first.word,
            &mut value,
        );
        after.let_go(before);
        match emitting.lane.start_emit(0, word) {
            Ok(Begun::Accepted(number)) => {
                after.let_go(value);
                self.accepted(emitting, number, after);
                First::Done(Outcome::Accepted(number))
            }
            Ok(Begun::Waiting(ticket)) => {
                first.keep(value);
                emitting.ticket = Some(ticket);
                self.gate.close(number);
                if !self.has_places {
                    // It may be on its way.
                    after.accepted();
                }
                First::Begun
            }
            Ok(Begun::Dropped) => {
                S::take_back(&self.slots, number, &mut value);
                after.let_go(value);
                First::Done(Outcome::Dropped)
            }
            Err(_spent) => {
                S::take_back(&self.slots, number, &mut value);
                First::Done(Outcome::Spent(value.expect("it came back")))
            }
        }
    }

    // Lets the first emission of the line in, where there is room by now, and says whether it is done.
    fn look_at(
        &self,
        emitting: &mut Emitting<T>,
        ticket: Ticket,
        after: &mut After<'_, T>,
    ) -> First<T> {
        if emitting.lane.scan() > 0 {
            after.accepted();
        }
        match emitting.lane.poll_emit(ticket) {
            Emit::Waiting => First::Waits,
            Emit::Done(number) => {
                emitting.ticket = None;
                self.accepted(emitting, number, after);
                First::Done(Outcome::Accepted(number))
            }
            Emit::Gone => unreachable!("the ticket is out until its emission is done"),
        }
    }

    /// The receipt of so many values, from this number on: where it may help an emission, that is done.
    #[inline]
    pub(crate) fn received(&self, number: u64, count: u64) -> Option<After<'_, T>> {
        if self.gate.is_passed_by(number, count) {
            return Some(self.help());
        }
        None
    }

    #[cold]
    fn help(&self) -> After<'_, T> {
        let mut after = After::new(&self.sleepers);
        self.let_in(&mut self.lock(), &mut after);
        after
    }

    /// Takes an emission back that waits, and gives its value. Nothing where it is done: then it has an outcome.
    pub(crate) fn withdraw(&self, queued: &Arc<Queued<T>>) -> Option<T> {
        self.locked(|emitting, after| {
            let mut line = emitting.line.iter();
            let place = line.position(|other| Arc::ptr_eq(other, queued))?;
            let value = match place {
                0 => self.recall(emitting, queued, after),
                _ => Err(queued.take_value().expect("it waits, with its value")),
            };
            emitting.line.remove(place);
            let value = match value {
                Err(value) => Some(value),
                Ok(number) => {
                    queued.finish(Outcome::Accepted(number), after);
                    None
                }
            };
            self.let_in(emitting, after);
            value
        })
    }

    // Takes back the first emission of the line: its number where it was accepted all the same, else its value.
    fn recall(
        &self,
        emitting: &mut Emitting<T>,
        first: &Queued<T>,
        after: &mut After<'_, T>,
    ) -> Result<u64, T> {
        let mut value = first.take_value();
        let Some(ticket) = emitting.ticket.take() else {
            return Err(value.expect("it wasn't begun"));
        };
        match emitting.lane.cancel_emit(ticket) {
            Withdrawn::Removed => {
                S::take_back(&self.slots, emitting.next, &mut value);
                Err(value.expect("it came back"))
            }
            Withdrawn::Left(number) => {
                after.let_go(value);
                self.accepted(emitting, number, after);
                Ok(number)
            }
            Withdrawn::Gone => unreachable!("the ticket is out until its emission is done"),
        }
    }

    /// Ends the flow: what waits is taken back and told so, and nothing is accepted any more.
    pub(crate) fn end(&self) {
        self.locked(|emitting, after| {
            after.end(emitting.emitter.take());
            while let Some(first) = emitting.line.front().map(Arc::clone) {
                let outcome = match self.recall(emitting, &first, after) {
                    Ok(number) => Outcome::Accepted(number),
                    Err(value) => Outcome::Ended(value),
                };
                emitting.line.pop_front();
                first.finish(outcome, after);
            }
            self.gate.open();
        });
    }

    pub(crate) fn is_ended(&self) -> bool {
        self.lock().emitter.is_none()
    }

    /// One more sender.
    pub(crate) fn add_sender(&self) {
        self.senders.fetch_add(1, SeqCst);
    }

    /// One sender less. The last one ends the flow.
    pub(crate) fn drop_sender(&self) {
        if self.senders.fetch_sub(1, SeqCst) == 1 {
            self.end();
        }
    }

    /// Admits a receiver, and says at which number it begins.
    pub(crate) fn admit(&self) -> Result<(Cursor, u64), Refusal> {
        self.locked(|emitting, _after| {
            let cursor = emitting.lane.admit()?;
            let start = cursor.start();
            S::join(&self.slots, emitting.numbers_from(start));
            emitting.receivers += 1;
            Ok((cursor, start))
        })
    }

    /// Closes a receiver that won't receive from this number on.
    pub(crate) fn close(&self, cursor: &mut Cursor, next: u64) {
        self.locked(|emitting, after| {
            after.let_all_go(S::leave(&self.slots, emitting.numbers_from(next)));
            drop(mem::replace(cursor, Cursor::nowhere()));
            emitting.receivers -= 1;
            self.let_in(emitting, after);
        });
    }

    pub(crate) fn receivers(&self) -> usize {
        self.lock().receivers
    }

    pub(crate) fn waiting(&self) -> usize {
        self.lock().line.len()
    }

    pub(crate) fn replay_len(&self) -> u64 {
        self.lock().lane.replay_len()
    }

    pub(crate) fn reset_replay(&self) {
        self.locked(|emitting, after| {
            let first = emitting.next - emitting.lane.replay_len();
            emitting.lane.reset_replay();
            after.let_all_go(S::reset(&self.slots, first..emitting.next));
        });
    }
}
