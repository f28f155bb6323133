//! Who sleeps until something is emitted or set. All of this is Rust's side, and outside the proof: the flows
//! themselves wake nobody.
//!
//! # Why no wake-up is lost
//! A sleeper that found nothing lists itself ([`list`](Sleepers::list)), then looks once more, and sleeps only where it
//! finds nothing again. An emitter stores its value in the flow, then looks whether somebody is listed ([`wake_all`]),
//! and wakes all of these. Four steps decide, and each is sequentially consistent, so they stand in one order:
//!
//! ```text
//! the sleeper     1  stores `count`              2  loads the flow's tail (of a state, its value)
//! the emitter     a  stores the tail (the value) b  loads `count`
//! ```
//!
//! Where 1 comes before b, the emitter finds a count above 0, as long as the sleeper is listed: each later store of
//! `count` counts it in, or is made by the one who took it off the list, to wake it. Where b comes before 1, then a
//! comes before 2, and the sleeper finds the value at its second look. Steps a and 2 are inside the library, whose
//! every atomic step is sequentially consistent.
//!
//! Who found something strikes itself off, unless it loads a count of 0. It stored a greater one when it listed itself, so
//! that is a later store, of one who found the list empty: it was taken off.
//!
//! The end is told in the same way: the last emitter counts itself off, then wakes all; a sleeper that lists itself and
//! looks again loads that count before it looks into the flow, so that the last value is found before the end is.
//!
//! [`wake_all`]: Sleepers::wake_all

use std::mem;
use std::sync::atomic::{AtomicU64, AtomicUsize, Ordering::SeqCst};
use std::sync::{Arc, Mutex, MutexGuard, PoisonError};
use std::task::Waker;
use std::thread::Thread;

/// One that sleeps.
pub enum Sleeper {
    /// A task, which is polled again.
    Task(Waker),
    /// A thread, which parked itself.
    Thread(Thread),
}

impl Sleeper {
    fn wake(self) {
        match self {
            Sleeper::Task(waker) => waker.wake(),
            Sleeper::Thread(thread) => thread.unpark(),
        }
    }
}

/// Those who are to be woken. Where a waker of others panics, the rest are woken all the same.
pub(crate) struct Woken<I: Iterator<Item = Sleeper>>(I);

impl<I: Iterator<Item = Sleeper>> Woken<I> {
    pub(crate) fn of(sleepers: impl IntoIterator<IntoIter = I>) -> Woken<I> {
        Woken(sleepers.into_iter())
    }

    pub(crate) fn wake(&mut self) {
        for sleeper in self.0.by_ref() {
            sleeper.wake();
        }
    }
}

impl<I: Iterator<Item = Sleeper>> Drop for Woken<I> {
    fn drop(&mut self) {
        self.wake();
    }
}

/// Those who sleep, each with the number of its receiver, which is listed once at most: at the place where it was put, as
/// long as it stays listed. Who was struck off leaves its place empty.
#[derive(Default)]
struct List {
    places: Vec<Option<(u64, Sleeper)>>,
    /// How many places aren't empty.
    count: usize,
    /// Memory for the next list, once this one is taken.
    spare: Vec<Option<(u64, Sleeper)>>,
}

impl List {
    /// Whether this receiver is at that place.
    fn has(&self, number: u64, place: usize) -> bool {
        matches!(self.places.get(place), Some(Some((other, _))) if *other == number)
    }

    /// Lists a receiver, at the place where it was last, if it is there or that is empty. Gives its place, and what it was
    /// listed with before.
    fn put(&mut self, number: u64, sleeper: Sleeper, place: usize) -> (usize, Option<Sleeper>) {
        let entry = Some((number, sleeper));
        if self.has(number, place) {
            let before = mem::replace(&mut self.places[place], entry);
            return (place, before.map(|(_, sleeper)| sleeper));
        }
        self.count += 1;
        let place = self.empty_place(place);
        match self.places.get_mut(place) {
            Some(empty) => *empty = entry,
            None => self.places.push(entry),
        }
        (place, None)
    }

    /// An empty place: that one, or the one after the last. Where most are empty, one of those is looked for.
    fn empty_place(&self, place: usize) -> usize {
        if matches!(self.places.get(place), Some(None)) {
            return place;
        }
        if self.places.len() < 2 * self.count + 8 {
            return self.places.len();
        }
        let empty = self.places.iter().position(Option::is_none);
        empty.unwrap_or(self.places.len())
    }

    /// Takes a receiver off the list, if it is there.
    fn take(&mut self, number: u64, place: usize) -> Option<Sleeper> {
        if !self.has(number, place) {
            return None;
        }
        self.count -= 1;
        let (_, sleeper) = self.places[place].take()?;
        while let Some(None) = self.places.last() {
            self.places.pop();
        }
        Some(sleeper)
    }

    fn take_all(&mut self) -> Vec<Option<(u64, Sleeper)>> {
        self.count = 0;
        mem::replace(&mut self.places, mem::take(&mut self.spare))
    }
}

/// The sleepers of one flow, shared by all who emit and all who receive.
#[derive(Default)]
pub(crate) struct Sleepers {
    listed: Mutex<List>,
    /// How many are listed. Stored under the lock, loaded without it.
    count: AtomicUsize,
    /// The number of the next receiver.
    next: AtomicU64,
    /// How many there are who may still emit or set.
    emitters: AtomicUsize,
}

impl Sleepers {
    /// The number of a new receiver.
    pub(crate) fn number(&self) -> u64 {
        self.next.fetch_add(1, SeqCst)
    }

    // No code of others runs under the lock, so a panic leaves the list whole.
    fn lock(&self) -> MutexGuard<'_, List> {
        self.listed.lock().unwrap_or_else(PoisonError::into_inner)
    }

    /// Lists a receiver as sleeping, in place of what it was listed with before. It tells the place where it was last, and
    /// gets the one where it is.
    pub(crate) fn list(&self, number: u64, sleeper: Sleeper, place: usize) -> usize {
        let mut listed = self.lock();
        let (place, before) = listed.put(number, sleeper, place);
        self.count.store(listed.count, SeqCst);
        // A waker that is let go may run code of others, so after the lock.
        drop(listed);
        drop(before);
        place
    }

    /// Takes a receiver off the list, that listed itself before. One load where nobody is listed.
    pub(crate) fn strike(&self, number: u64, place: usize) {
        if self.count.load(SeqCst) == 0 {
            return;
        }
        let mut listed = self.lock();
        let before = listed.take(number, place);
        self.count.store(listed.count, SeqCst);
        drop(listed);
        drop(before);
    }

    /// Wakes all who sleep. One load where nobody does.
    #[inline]
    pub(crate) fn wake_all(&self) {
        if self.count.load(SeqCst) != 0 {
            self.wake_listed();
        }
    }

    #[cold]
    fn wake_listed(&self) {
        let mut listed = self.lock();
        let mut woken = listed.take_all();
        self.count.store(0, SeqCst);
        drop(listed);
        Woken::of(woken.drain(..).flatten().map(|(_, sleeper)| sleeper)).wake();
        let mut listed = self.lock();
        let spare = mem::replace(&mut listed.spare, woken);
        drop(listed);
        drop(spare);
    }

    /// Whether nobody is left who may emit.
    pub(crate) fn is_ended(&self) -> bool {
        self.emitters.load(SeqCst) == 0
    }
}

/// One who may emit, counted as long as it lives.
pub(crate) struct Emitter(Arc<Sleepers>);

impl Emitter {
    /// The first emitter of a new flow.
    pub(crate) fn first() -> Emitter {
        Emitter::of(&Arc::new(Sleepers::default()))
    }

    /// One more emitter of a flow.
    pub(crate) fn of(sleepers: &Arc<Sleepers>) -> Emitter {
        sleepers.emitters.fetch_add(1, SeqCst);
        Emitter(Arc::clone(sleepers))
    }

    pub(crate) fn sleepers(&self) -> &Arc<Sleepers> {
        &self.0
    }

    /// Wakes all who sleep: after each step that may have accepted an emission or set a value.
    #[inline]
    pub(crate) fn wake_all(&self) {
        self.0.wake_all();
    }
}

impl Drop for Emitter {
    fn drop(&mut self) {
        // After the last one those who sleep find the end.
        if self.0.emitters.fetch_sub(1, SeqCst) == 1 {
            self.0.wake_all();
        }
    }
}

#[cfg(test)]
mod tests {
    use super::{Emitter, Sleeper};
    use std::panic::{catch_unwind, AssertUnwindSafe};
    use std::sync::atomic::{AtomicUsize, Ordering::SeqCst};
    use std::sync::Arc;
    use std::task::{Wake, Waker};

    /// Counts how often it is woken, and may panic then.
    struct Counting {
        count: AtomicUsize,
        panics: bool,
    }

    impl Wake for Counting {
        fn wake(self: Arc<Self>) {
            self.count.fetch_add(1, SeqCst);
            assert!(!self.panics, "a waker of others panics");
        }
    }

    #[test]
    fn a_waker_that_panics_keeps_nobody_asleep() {
        let emitter = Emitter::first();
        let wakers = [false, true, false, false].map(|panics| {
            Arc::new(Counting {
                count: AtomicUsize::new(0),
                panics,
            })
        });
        for waker in &wakers {
            let sleepers = emitter.sleepers();
            let sleeper = Sleeper::Task(Waker::from(Arc::clone(waker)));
            sleepers.list(sleepers.number(), sleeper, 0);
        }
        assert!(catch_unwind(AssertUnwindSafe(|| emitter.wake_all())).is_err());
        assert!(wakers.iter().all(|waker| waker.count.load(SeqCst) == 1));
        emitter.wake_all();
        assert!(wakers.iter().all(|waker| waker.count.load(SeqCst) == 1));
    }

    /// Who is listed is woken once, and who was struck off isn't, however many come and go. Places are used again.
    #[test]
    fn who_is_struck_off_is_not_woken_and_its_place_is_used_again() {
        let emitter = Emitter::first();
        let sleepers = emitter.sleepers();
        let counting = || {
            Arc::new(Counting {
                count: AtomicUsize::new(0),
                panics: false,
            })
        };
        let task = |waker: &Arc<Counting>| Sleeper::Task(Waker::from(Arc::clone(waker)));
        let (stays, goes) = (counting(), counting());
        let numbers: Vec<u64> = (0..40).map(|_| sleepers.number()).collect();
        let mut places = vec![0; 40];
        for round in 0..100 {
            for (index, &number) in numbers.iter().enumerate() {
                let waker = if index == 39 { &stays } else { &goes };
                places[index] = sleepers.list(number, task(waker), places[index]);
                if index % 3 == round % 3 {
                    places[index] = sleepers.list(number, task(waker), places[index]);
                }
            }
            for index in (0..39).filter(|index| index % 2 == round % 2).chain(0..39) {
                sleepers.strike(numbers[index], places[index]);
            }
            assert_eq!(sleepers.count.load(SeqCst), 1);
            if round % 10 == 9 {
                emitter.wake_all();
                assert_eq!(stays.count.load(SeqCst), round / 10 + 1);
            }
        }
        assert_eq!(goes.count.load(SeqCst), 0);
        assert!(sleepers.lock().places.len() <= 90);
    }
}
