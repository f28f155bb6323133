//! What the machine allows: single atomic steps, a word that goes to and fro between two threads, a word that several
//! want.

use crate::figures::{cost, timed, Figure};
use crate::padded::Padded;
use crate::race::{race, Job};
use std::hint::{black_box, spin_loop};
use std::sync::atomic::AtomicU64;
use std::sync::atomic::Ordering::{Release, SeqCst};
use std::sync::Arc;

const STEPS: u64 = 20_000_000;
const TURNS: u64 = 500_000;

fn machine<'a>(scenario: &'a str, name: &'a str) -> Figure<'a> {
    Figure {
        peer: "machine",
        scenario,
        name,
    }
}

pub fn measure() {
    step("load", |word, _| word.load(SeqCst));
    step("store", |word, number| {
        word.store(number, SeqCst);
        0
    });
    step("store-release", |word, number| {
        word.store(number, Release);
        0
    });
    step("swap", |word, number| word.swap(number, SeqCst));
    step("compare-exchange", |word, number| {
        let moved = word.compare_exchange(number, number + 1, SeqCst, SeqCst);
        moved.unwrap_or_else(|now| now)
    });
    turns();
    for threads in [2, 4] {
        contended(threads);
    }
}

fn step(name: &str, step: impl Fn(&AtomicU64, u64) -> u64) {
    let word = Padded::zero();
    cost(machine("machine-step", name), STEPS, 1, |count| {
        let word = black_box(&word.0);
        timed(|| (0..count).fold(0, |_, number| black_box(step(word, number))))
    });
}

/// From a store of one thread to the load of another.
fn turns() {
    cost(machine("machine-turns", "one-way"), TURNS, 2, |count| {
        let word = Arc::new(Padded::zero());
        let side = |which| {
            let word = word.clone();
            Box::new(move || take_turns(&word.0, which, count)) as Job
        };
        race(vec![side(0), side(1)]).all
    });
}

fn take_turns(word: &AtomicU64, which: u64, count: u64) -> u64 {
    for turn in 0..count {
        let mine = 2 * turn + which;
        while word.load(SeqCst) != mine {
            spin_loop();
        }
        word.store(mine + 1, SeqCst);
    }
    count
}

fn contended(threads: usize) {
    let scenario = &format!("machine-n{threads}");
    cost(
        machine(scenario, "fetch-add"),
        2_000_000,
        threads,
        |count| {
            let word = Arc::new(Padded::zero());
            let adder = |_| {
                let word = word.clone();
                Box::new(move || (0..count).fold(0, |_, _| word.0.fetch_add(1, SeqCst))) as Job
            };
            race((0..threads).map(adder).collect()).all
        },
    );
}
