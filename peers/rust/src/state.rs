//! A state: on one thread, and with one writer and collectors that ask without pause for a value that is new.

use crate::figures::{cost, repeats, report, timed, Figure, Unit};
use crate::race::{race, Job};
use crate::states::{State, StrongWord, Watch, WeakWord};
use arc_swap::ArcSwap;
use std::hint::black_box;
use std::sync::atomic::{AtomicBool, Ordering};
use std::sync::{Arc, Mutex, RwLock};

const VALUES: u64 = 2_000_000;
/// Asks between two looks at whether the writer has ended.
const BATCH: u64 = 16;

pub fn measure() {
    all::<Watch>();
    all::<Mutex<u64>>();
    all::<RwLock<u64>>();
    all::<ArcSwap<u64>>();
    all::<StrongWord>();
    all::<WeakWord>();
}

fn all<S: State>() {
    alone::<S>();
    for collectors in [1, 2] {
        between_threads::<S>(collectors);
    }
}

fn alone<S: State>() {
    let figure = |name| Figure {
        peer: S::NAME,
        scenario: "state-alone",
        name,
    };
    let state = Arc::new(S::new());
    cost(figure("set"), VALUES, 1, |count| {
        timed(|| {
            (0..count).for_each(|value| state.set(black_box(value)));
            0
        })
    });
    cost(figure("read"), VALUES, 1, |count| {
        timed(|| (0..count).fold(0u64, |sum, _| sum.wrapping_add(black_box(state.read()))))
    });
    let mut collector = state.collector();
    cost(figure("set+ask"), VALUES, 1, |count| {
        timed(|| {
            for value in 1..=count {
                state.set(black_box(value));
                assert_eq!(black_box(S::ask(&mut collector)), Some(value));
            }
            0
        })
    });
}

fn between_threads<S: State>(collectors: usize) {
    let (count, races) = repeats(VALUES, |count| race(jobs::<S>(collectors, count)));
    let scenario = &format!("state-c{collectors}");
    let figure = |name| Figure {
        peer: S::NAME,
        scenario,
        name,
    };
    let sets = races
        .iter()
        .map(|r| r.first.as_nanos() as f64 / count as f64);
    report(figure("set"), Unit::Nanoseconds, sets.collect(), count);
    let asks = races.iter().map(|r| {
        let each = r.others.iter().sum::<u64>() as f64 / collectors as f64;
        r.all.as_nanos() as f64 / each.max(1.0)
    });
    report(figure("ask"), Unit::Nanoseconds, asks.collect(), count);
}

fn jobs<S: State>(collectors: usize, count: u64) -> Vec<Job> {
    let state = Arc::new(S::new());
    let over = Arc::new(AtomicBool::new(false));
    let all: Vec<_> = (0..collectors).map(|_| state.collector()).collect();
    let told = over.clone();
    let mut jobs: Vec<Job> = vec![Box::new(move || {
        (1..=count).for_each(|value| state.set(black_box(value)));
        told.store(true, Ordering::SeqCst);
        0
    })];
    for mut collector in all {
        let over = over.clone();
        jobs.push(Box::new(move || asks_of::<S>(&mut collector, &over)));
    }
    jobs
}

/// Asks until the writer has ended, and gives how often.
fn asks_of<S: State>(collector: &mut S::Collector, over: &AtomicBool) -> u64 {
    let (mut asks, mut last) = (0, 0);
    while !over.load(Ordering::Relaxed) {
        last = (0..BATCH).fold(last, |last, _| {
            let value = S::ask(collector).unwrap_or(last);
            assert!(last <= value, "{}: not in order", S::NAME);
            value
        });
        asks += BATCH;
    }
    asks
}
