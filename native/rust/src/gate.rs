//! Which receipts may help an emission that waits: how a receiver learns, by one load, that it has to look.
//!
//! # Why no emission that waits is forgotten
//! This mirrors `sleepers.rs`. An emission has to wait where some receiver hasn't received the value whose place it would
//! take: let that have the number `g`. Who begins the wait does so under the flow's lock: it stores `g` in the gate, and
//! then looks at all receivers once more (`scan`). A receiver moves its own cursor, by which it has received a value, and
//! then loads the gate. Where it finds the number of that value there, it takes the lock, and looks as well. Four steps
//! decide, and each is sequentially consistent, so they stand in one order:
//!
//! ```text
//! the emission     1  stores the gate            2  loads the cursors
//! a receiver       a  moves its cursor past `g`  b  loads the gate
//! ```
//!
//! While an emission waits nothing is dropped, so each receiver that stands at `g` or before it moves past it at some
//! time, by the receipt of `g` itself. Take the one whose step a is the last of all. Where its b comes before 1, then so
//! do all steps a, and step 2 finds room. Where 1 comes before b, it finds `g`, or what was stored there later. The gate
//! is stored under the lock only where the emission that waited at it is done, or was taken back; and else it has `g`,
//! takes the lock, and finds all cursors past `g`: so it accepts the emission. One that comes later begins at the replay
//! cache; it is at `g` or before it only where `g` is cached, and then it moves past `g` as the others do. One that
//! leaves takes the lock in any case, and looks.
//!
//! A flow without places has two such numbers: an emission is accepted once all have the value before its own, and is
//! done once all have its own. So there two numbers match, that of the emission and the one before it.
//!
//! A look under the lock goes over all emissions that wait, as far as there is room, and stores the gate for the first
//! one that waits still. Steps a and 2 are inside the library, whose every atomic step is sequentially consistent. A test
//! below makes these steps in every order, for up to three receivers, and finds what is lost where two are exchanged.

use std::sync::atomic::{AtomicU64, Ordering::SeqCst};

/// Nobody waits: no number of an emission is near it.
const OPEN: u64 = 1 << 63;

/// The gate of a flow. It has a cache line of its own, which is written only where emissions wait.
#[repr(align(128))]
pub(crate) struct Gate {
    /// The least number that matches, or `OPEN`.
    first: AtomicU64,
    /// How many numbers match.
    width: u64,
    /// How far the least one is before the number of the emission that waits.
    behind: u64,
}

impl Gate {
    pub(crate) fn new(places: u64) -> Gate {
        Gate {
            first: AtomicU64::new(OPEN),
            width: if places == 0 { 2 } else { 1 },
            behind: places.max(1),
        }
    }

    /// An emission waits, which will have this number. Who calls this looks at the cursors after it.
    pub(crate) fn close(&self, number: u64) {
        // Below the first number of all there is none, and then the number itself matches alone.
        self.first.store(number.wrapping_sub(self.behind), SeqCst);
    }

    /// Nobody waits any more.
    pub(crate) fn open(&self) {
        if self.first.load(SeqCst) != OPEN {
            self.first.store(OPEN, SeqCst);
        }
    }

    /// Whether the receipt of so many values, from this number on, may help an emission.
    #[inline]
    pub(crate) fn is_passed_by(&self, number: u64, count: u64) -> bool {
        let first = self.first.load(SeqCst);
        number.wrapping_sub(first) < self.width || first.wrapping_sub(number) < count
    }
}

#[cfg(test)]
mod tests {
    use super::Gate;

    #[test]
    fn the_receipt_that_makes_room_passes_and_no_other() {
        let gate = Gate::new(4);
        assert!(!(0..9).any(|number| gate.is_passed_by(number, 1)));
        gate.close(6);
        let passing: Vec<u64> = (0..9).filter(|&n| gate.is_passed_by(n, 1)).collect();
        assert_eq!(passing, [2]);
        assert!(gate.is_passed_by(0, 3) && gate.is_passed_by(1, 64));
        assert!(!gate.is_passed_by(0, 2) && !gate.is_passed_by(3, 64));
        gate.open();
        assert!(!gate.is_passed_by(2, 1) && !gate.is_passed_by(0, 64));
    }

    #[test]
    fn without_places_its_own_receipt_passes_and_the_one_before() {
        let gate = Gate::new(0);
        gate.close(5);
        let passing: Vec<u64> = (0..9).filter(|&n| gate.is_passed_by(n, 1)).collect();
        assert_eq!(passing, [4, 5]);
        gate.close(0);
        let passing: Vec<u64> = (0..9).filter(|&n| gate.is_passed_by(n, 1)).collect();
        assert_eq!(passing, [0]);
        gate.open();
        assert!(!gate.is_passed_by(0, 1));
    }

    /// One step of the argument above, as one thread makes it.
    #[derive(Clone, Copy, PartialEq)]
    enum Step {
        Lock,
        CloseGate,
        Look,
        Unlock,
        MoveCursor,
        LoadGate,
    }
    use Step::*;

    const EMISSION: &[Step] = &[Lock, CloseGate, Look, Unlock];
    const RECEIPT: &[Step] = &[MoveCursor, LoadGate, Lock, Look, Unlock];

    /// One emission that waits for the receipt of `g` by all, and who has made which steps.
    #[derive(Clone)]
    struct Run<'a> {
        threads: Vec<(&'a [Step], usize)>,
        passed: Vec<bool>,
        is_closed: bool,
        is_begun: bool,
        is_locked: bool,
        is_let_in: bool,
    }

    impl Run<'_> {
        /// The next step of a thread, if it isn't done and doesn't wait for the lock.
        fn next(&self, thread: usize) -> Option<Step> {
            let (steps, at) = self.threads[thread];
            let step = *steps.get(at)?;
            (step != Lock || !self.is_locked).then_some(step)
        }

        fn make(&mut self, thread: usize, step: Step) {
            self.threads[thread].1 += 1;
            match step {
                Lock => self.is_locked = true,
                Unlock => self.is_locked = false,
                CloseGate => self.is_closed = true,
                MoveCursor => self.passed[thread] = true,
                // Where the gate hasn't its number, a receipt is done.
                LoadGate if !self.is_closed => self.threads[thread].0 = &[],
                LoadGate => {}
                Look => {
                    self.is_begun |= thread == 0;
                    if self.is_begun && self.passed[1..].iter().all(|&passed| passed) {
                        self.is_let_in = true;
                        self.is_closed = false;
                    }
                }
            }
        }

        /// Whether each order of the steps that are left accepts the emission.
        fn always_lets_in(&self) -> bool {
            let mut is_done = true;
            for thread in 0..self.threads.len() {
                let Some(step) = self.next(thread) else {
                    continue;
                };
                is_done = false;
                let mut later = self.clone();
                later.make(thread, step);
                if !later.always_lets_in() {
                    return false;
                }
            }
            !is_done || self.is_let_in
        }
    }

    /// So many receivers stand at `g`, and make these steps each, beside an emission that makes those.
    fn lets_in(emission: &[Step], receipt: &[Step], receivers: usize) -> bool {
        let mut threads = vec![(emission, 0)];
        threads.extend(vec![(receipt, 0); receivers]);
        let run = Run {
            passed: vec![false; threads.len()],
            threads,
            is_closed: false,
            is_begun: false,
            is_locked: false,
            is_let_in: false,
        };
        run.always_lets_in()
    }

    #[test]
    fn each_order_of_the_steps_lets_the_emission_in() {
        for receivers in 1..=3 {
            assert!(lets_in(EMISSION, RECEIPT, receivers));
        }
    }

    #[test]
    fn steps_in_another_order_forget_it() {
        assert!(!lets_in(&[Lock, Look, CloseGate, Unlock], RECEIPT, 1));
        assert!(!lets_in(
            EMISSION,
            &[LoadGate, MoveCursor, Lock, Look, Unlock],
            1
        ));
        assert!(!lets_in(EMISSION, &[MoveCursor, LoadGate], 1));
    }
}
