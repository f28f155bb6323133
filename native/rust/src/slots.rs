//! Values of any type beside a lane's words: a ring of slots, each under a lock of its own. The word of an emission is its
//! number, and says which slot has the value.
//!
//! # Why a receiver finds what its word tells of
//! There are at least two slots more than a receiver has places, of which a flow without any has one: its lane keeps one
//! value. A slot is filled before its emission is tried, with the number that comes next. Then the number before was
//! accepted, and for that each receiver had received what is `places` before it, and was done with all that is before that
//! one: it takes a value out of its slot before it asks for the next. So the values that somebody may still be taking, and
//! the one that is put, have at most `places + 2` numbers in a row, and each its own slot.
//!
//! Where the oldest are dropped, a receiver may take a word and be late for its slot. It finds another number there, or no
//! value, and has lost the value, as if the policy had dropped it just before.
//!
//! # Why a value is dropped once
//! It lies in an `Option` in one slot, and leaves it by being moved: to the last receiver that was to get it, to the
//! emission whose value takes its place, to who took it back, or with the flow. There is no unsafe code here.
//!
//! A value is kept as long as somebody is to get it: `left` counts the receivers that were there when it was emitted, or
//! that came while it was in the replay cache, and didn't take it or leave yet. One who lost it stays counted, so what
//! was lost by somebody may lie there until its slot is filled again.

use std::mem;
use std::ops::Range;
use std::sync::{Mutex, MutexGuard, PoisonError};

/// No emission has this number.
const NONE: u64 = u64::MAX;

struct Slot<T> {
    /// The number of the emission whose value lies here, or did last.
    number: u64,
    /// How many receivers are to get it.
    left: usize,
    /// Whether the replay cache has it, so that receivers to come will get it, too.
    is_replayed: bool,
    value: Option<T>,
}

impl<T> Slot<T> {
    /// The value, where nobody is to get it any more.
    fn if_done(&mut self) -> Option<T> {
        if self.left > 0 || self.is_replayed {
            return None;
        }
        self.value.take()
    }

    fn leave(&mut self) -> Option<T> {
        self.left = self.left.saturating_sub(1);
        self.if_done()
    }

    fn expire(&mut self) -> Option<T> {
        self.is_replayed = false;
        self.if_done()
    }
}

/// The slots of a flow.
pub struct SlotStore<T> {
    slots: Box<[Mutex<Slot<T>>]>,
    replay: u64,
}

impl<T> SlotStore<T> {
    // The slot of an emission. Only a value's `clone` runs under its lock, and a panic there leaves the slot whole.
    #[inline]
    fn at(&self, number: u64) -> MutexGuard<'_, Slot<T>> {
        // There are a power of two.
        let index = number as usize & (self.slots.len() - 1);
        self.slots[index]
            .lock()
            .unwrap_or_else(PoisonError::into_inner)
    }

    /// What a step gives for each of these emissions whose value is still in its slot.
    fn each(&self, numbers: Range<u64>, step: impl Fn(&mut Slot<T>) -> Option<T>) -> Vec<T> {
        let count = self.slots.len() as u64;
        let first = numbers.start.max(numbers.end.saturating_sub(count));
        let mut out = Vec::new();
        for number in first..numbers.end {
            let mut slot = self.at(number);
            if slot.number == number {
                out.extend(step(&mut slot));
            }
        }
        out
    }

    /// The slots of a flow with so many places.
    pub(crate) fn new(places: u64, replay: u64) -> SlotStore<T> {
        let count = (places.max(1) as usize + 2).next_power_of_two();
        let empty = || Slot {
            number: NONE,
            left: 0,
            is_replayed: false,
            value: None,
        };
        SlotStore {
            slots: (0..count).map(|_| Mutex::new(empty())).collect(),
            replay,
        }
    }

    /// No slots: no other call is made on these.
    pub(crate) fn none() -> SlotStore<T> {
        SlotStore {
            slots: Box::new([]),
            replay: 0,
        }
    }

    /// Puts a value in its slot, for so many receivers. Gives the one whose place it takes.
    #[inline]
    pub(crate) fn put(&self, number: u64, receivers: usize, value: &mut Option<T>) -> Option<T> {
        let mut slot = self.at(number);
        slot.number = number;
        slot.left = receivers;
        slot.is_replayed = self.replay > 0;
        mem::replace(&mut slot.value, value.take())
    }

    /// Takes back a value whose emission wasn't accepted.
    pub(crate) fn take_back(&self, number: u64) -> Option<T> {
        let mut slot = self.at(number);
        slot.number = NONE;
        slot.value.take()
    }

    /// An emission was accepted for so many receivers, and took the place of the oldest one in the replay cache.
    #[inline]
    pub(crate) fn settle(&self, number: u64, receivers: usize) -> Option<T> {
        if self.replay == 0 && receivers > 0 {
            return None;
        }
        let oldest = number.checked_sub(self.replay)?;
        let mut slot = self.at(oldest);
        if slot.number != oldest {
            return None;
        }
        slot.expire()
    }

    pub(crate) fn join(&self, numbers: Range<u64>) {
        self.each(numbers, |slot| {
            slot.left += 1;
            None
        });
    }

    pub(crate) fn leave(&self, numbers: Range<u64>) -> Vec<T> {
        self.each(numbers, Slot::leave)
    }

    pub(crate) fn reset(&self, numbers: Range<u64>) -> Vec<T> {
        self.each(numbers, Slot::expire)
    }
}

impl<T: Clone> SlotStore<T> {
    /// The value of an emission, for one of its receivers.
    #[inline]
    pub(crate) fn take(&self, number: u64) -> Option<T> {
        let mut slot = self.at(number);
        if slot.number != number {
            return None;
        }
        if let Some(value) = slot.leave() {
            return Some(value);
        }
        slot.value.clone()
    }
}
