//! What is to be done once the lock of a flow is given back: wakes, and values that are let go. Both may run code of
//! others, which may panic, or call the flow.

use crate::sleepers::{Emitter, Sleeper, Sleepers, Woken};
use std::mem;

/// What is left to do. It is done by the drop, and all of it also where a part of it panics, or where the step under the
/// lock did. Whoever makes one lets the lock go before it.
pub(crate) struct After<'a, T> {
    sleepers: &'a Sleepers,
    /// Whether an emission was accepted, for which receivers may sleep.
    is_accepted: bool,
    /// Those who waited for their own emission.
    woken: Vec<Sleeper>,
    // These are let go in this order, after all wakes.
    _ended: Option<Emitter>,
    first: Option<T>,
    second: Option<T>,
    more: Vec<T>,
}

impl<'a, T> After<'a, T> {
    #[inline]
    pub(crate) fn new(sleepers: &'a Sleepers) -> After<'a, T> {
        After {
            sleepers,
            is_accepted: false,
            woken: Vec::new(),
            _ended: None,
            first: None,
            second: None,
            more: Vec::new(),
        }
    }

    /// An emission was accepted: who sleeps is to be woken.
    #[inline]
    pub(crate) fn accepted(&mut self) {
        self.is_accepted = true;
    }

    pub(crate) fn wake(&mut self, sleeper: Sleeper) {
        self.woken.push(sleeper);
    }

    /// Nobody emits any more.
    pub(crate) fn end(&mut self, emitter: Option<Emitter>) {
        self._ended = emitter;
    }

    /// A value is let go. The usual two of them take no memory.
    #[inline]
    pub(crate) fn let_go(&mut self, value: Option<T>) {
        if value.is_none() {
            return;
        }
        if self.first.is_none() {
            self.first = value;
        } else if self.second.is_none() {
            self.second = value;
        } else {
            self.more.extend(value);
        }
    }

    pub(crate) fn let_all_go(&mut self, values: Vec<T>) {
        if self.more.is_empty() {
            self.more = values;
        } else {
            self.more.extend(values);
        }
    }
}

impl<T> Drop for After<'_, T> {
    #[inline]
    fn drop(&mut self) {
        // Where a waker of others panics, this one's drop wakes the rest.
        let woken = (!self.woken.is_empty()).then(|| Woken::of(mem::take(&mut self.woken)));
        if self.is_accepted {
            self.sleepers.wake_all();
        }
        if let Some(mut woken) = woken {
            woken.wake();
        }
    }
}
