//! A seat at a state flow.

use crate::collector::Collector;
use crate::raw::{self, Handle};
use crate::refusal::Refusal;
use crate::sleepers::Emitter;
use crate::word::Word;
use std::fmt;
use std::marker::PhantomData;
use std::sync::Arc;

/// A seat at a state flow, from which one thread at a time reads and sets the value: Kotlin's `MutableStateFlow`.
/// Another thread gets a seat of its own by [`take_seat`](StateSeat::take_seat). No call waits. One that sets takes a lock
/// only where a collector sleeps: then it takes their list, and wakes each on its own thread, by wakers that may be code
/// of others.
///
/// A state flow always has a value, and setting an equal one does nothing. A seat that is dropped takes with it what
/// could be taken of it; the flow is freed with the last of its seats.
///
/// ```
/// use hillgauze::StateSeat;
/// use std::thread;
///
/// let mut seat = StateSeat::new(0u64, 2)?;
/// let mut other = seat.take_seat(0)?;
/// thread::spawn(move || other.set(5)).join().unwrap();
/// assert_eq!(seat.value(), 5);
/// assert!(!seat.compare_and_set(4, 6));
/// # Ok::<(), hillgauze::Refusal>(())
/// ```
#[must_use = "a seat that is dropped takes with it what could be taken of it"]
pub struct StateSeat<T: Word> {
    handle: Handle<raw::State>,
    emitter: Emitter,
    values: PhantomData<T>,
}

impl<T: Word> StateSeat<T> {
    /// Makes a state flow that holds `value`, and gives its first seat: `MutableStateFlow(value)`. Of that seat `seats
    /// - 1` more can be taken.
    ///
    /// Refused as `BadLimit` where `seats` is 0 or over 1,024, then as `NoMemory`.
    pub fn new(value: T, seats: u32) -> Result<StateSeat<T>, Refusal> {
        let handle = Handle::null();
        // SAFETY: the handle is null, and good for the call.
        unsafe { raw::hillgauze_state_new(handle.at(), value.to_word(), seats) }
            .granted()?
            .done();
        Ok(StateSeat::over(handle, Emitter::first()))
    }

    pub(crate) fn over(handle: Handle<raw::State>, emitter: Emitter) -> StateSeat<T> {
        StateSeat {
            handle,
            emitter,
            values: PhantomData,
        }
    }

    /// The value, by one load: Kotlin's `value`.
    pub fn value(&self) -> T {
        // SAFETY: the handle is live, and no other call has it.
        let reply = unsafe { raw::hillgauze_state_value(self.handle.at()) };
        reply.value().expect("a state always has a value")
    }

    /// Sets the value, by one swap: Kotlin's `value = ..`. A value that is equal to the present one changes nothing.
    pub fn set(&mut self, value: T) {
        // SAFETY: the handle is live, and no other call has it.
        unsafe { raw::hillgauze_state_set(self.handle.at(), value.to_word()) }.done();
        self.emitter.wake_all();
    }

    /// Sets the value to `update` where it is equal to `expect`, by one compare_exchange, and says whether it was
    /// equal: Kotlin's `compareAndSet`. With all three equal it answers true and changes nothing.
    pub fn compare_and_set(&mut self, expect: T, update: T) -> bool {
        let (expect, update) = (expect.to_word(), update.to_word());
        // SAFETY: the handle is live, and no other call has it.
        let reply =
            unsafe { raw::hillgauze_state_compare_and_set(self.handle.at(), expect, update) };
        let was_equal = reply.was_equal();
        if was_equal {
            self.emitter.wake_all();
        }
        was_equal
    }

    /// Sets the value to what `next` makes of it, and gives the one before and the one after: Kotlin's `update`, and both
    /// `getAndUpdate` and `updateAndGet`. Where another seat sets the value meanwhile, `next` is asked again of that one.
    ///
    /// ```
    /// use hillgauze::StateSeat;
    ///
    /// let mut seat = StateSeat::new(20u64, 1)?;
    /// assert_eq!(seat.update(|value| value + 1), (20, 21));
    /// assert_eq!(seat.value(), 21);
    /// # Ok::<(), hillgauze::Refusal>(())
    /// ```
    pub fn update(&mut self, mut next: impl FnMut(T) -> T) -> (T, T) {
        loop {
            let before = self.value();
            let after = next(before);
            if self.compare_and_set(before, after) {
                return (before, after);
            }
        }
    }

    /// How many collectors there are, as this call finds them: Kotlin's `subscriptionCount.value`.
    pub fn collectors(&self) -> u32 {
        // SAFETY: the handle is live, and no other call has it.
        unsafe { raw::hillgauze_state_collectors(self.handle.at()) }.small_count()
    }

    /// How many more seats can be taken of this one.
    pub fn spare(&self) -> u32 {
        // SAFETY: the handle is live, and no other call has it.
        unsafe { raw::hillgauze_state_spare(self.handle.at()) }.small_count()
    }

    /// Takes a new seat, of which `share` more can be taken; this one has `share + 1` fewer to give.
    ///
    /// Refused as `NoMemory`, then as `SubscribersFull` where `share + 1` is over `spare()`.
    pub fn take_seat(&mut self, share: u32) -> Result<StateSeat<T>, Refusal> {
        let other = Handle::null();
        // SAFETY: this seat's handle is live, the other is null, and no other call has them.
        unsafe { raw::hillgauze_state_take_seat(self.handle.at(), share, other.at()) }
            .granted()?
            .done();
        Ok(StateSeat::over(other, Emitter::of(self.emitter.sleepers())))
    }

    /// Takes back another seat of the same flow, with all that could be taken of it. A seat of another flow is given
    /// back as it was.
    pub fn give_back(&mut self, other: StateSeat<T>) -> Result<(), StateSeat<T>> {
        // The flows are two where their sleepers are.
        if !Arc::ptr_eq(self.emitter.sleepers(), other.emitter.sleepers()) {
            return Err(other);
        }
        // SAFETY: both handles are live, of one flow, two different ones, and no other call has them.
        unsafe { raw::hillgauze_state_give_back(self.handle.at(), other.handle.at()) }.done();
        Ok(())
    }

    /// Begins to collect: Kotlin's `collect`. The seat is used up, until [`cancel`](Collector::cancel) gives it back.
    pub fn collect(self) -> Collector<T> {
        let collector = Handle::null();
        // SAFETY: the seat's handle is live, the collector's is null, and no other call has them.
        unsafe { raw::hillgauze_state_collect(self.handle.at(), collector.at()) }.done();
        Collector::over(collector, self.emitter.sleepers())
    }
}

impl<T: Word> fmt::Debug for StateSeat<T> {
    fn fmt(&self, f: &mut fmt::Formatter<'_>) -> fmt::Result {
        f.debug_struct("StateSeat").finish_non_exhaustive()
    }
}
