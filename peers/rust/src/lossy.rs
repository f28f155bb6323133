//! A thread that emits and never waits, and readers on threads of their own. The oldest values are dropped.

use crate::async_broadcasts::DroppingBroadcast;
use crate::crossbeams::Queues;
use crate::figures::{repeats, report, Figure, Unit};
use crate::lane_model::DroppingLane;
use crate::lossy_ring::LossyRing;
use crate::mutex_queue::DroppingQueue;
use crate::orders::{Strong, Weak};
use crate::pause::Pause;
use crate::polled::Polled;
use crate::race::{race, Job};
use crate::tokio_broadcast::Broadcast;
use std::hint::spin_loop;
use std::sync::atomic::{AtomicBool, Ordering};
use std::sync::Arc;

const VALUES: u64 = 2_000_000;
const CAPACITY: usize = 1024;

/// The readers of one measurement.
#[derive(Clone, Copy)]
struct Readers {
    count: usize,
    /// Turns of a spin that each spends on a value.
    turns: u32,
}

pub fn measure() {
    for count in [1, 2, 4] {
        all(&format!("lossy-n{count}"), Readers { count, turns: 0 });
    }
    let slow = Readers {
        count: 2,
        turns: 50,
    };
    all("lossy-slow-n2", slow);
}

fn all(scenario: &str, readers: Readers) {
    losses::<Broadcast>(scenario, readers);
    losses::<DroppingBroadcast>(scenario, readers);
    losses::<Queues>(scenario, readers);
    losses::<DroppingQueue>(scenario, readers);
    losses::<DroppingLane>(scenario, readers);
    losses::<LossyRing<Strong>>(scenario, readers);
    losses::<LossyRing<Weak>>(scenario, readers);
}

fn losses<F: Polled>(scenario: &str, readers: Readers) {
    let (count, races) = repeats(VALUES, |count| race(jobs::<F>(readers, count)));
    let figure = |name| Figure {
        peer: F::NAME,
        scenario,
        name,
    };
    let emissions = races
        .iter()
        .map(|r| r.first.as_nanos() as f64 / count as f64);
    report(
        figure("emission"),
        Unit::Nanoseconds,
        emissions.collect(),
        count,
    );
    let received = |others: &[u64]| others.iter().sum::<u64>() as f64;
    let receipts = races
        .iter()
        .map(|r| received(&r.others) / r.all.as_secs_f64() / 1e6);
    report(
        figure("receipts"),
        Unit::MillionsASecond,
        receipts.collect(),
        count,
    );
    let sent = count as f64 * readers.count as f64;
    let kept = races.iter().map(|r| 100.0 * received(&r.others) / sent);
    report(figure("kept"), Unit::Percent, kept.collect(), count);
}

fn jobs<F: Polled>(readers: Readers, count: u64) -> Vec<Job> {
    let over = Arc::new(AtomicBool::new(false));
    let (mut emitter, all) = F::open(CAPACITY, readers.count);
    let told = over.clone();
    let mut jobs: Vec<Job> = vec![Box::new(move || {
        for value in 0..count {
            F::try_emit(&mut emitter, value);
        }
        told.store(true, Ordering::SeqCst);
        0
    })];
    for mut reader in all {
        let over = over.clone();
        jobs.push(Box::new(move || {
            count_of::<F>(&mut reader, readers.turns, &over)
        }));
    }
    jobs
}

/// Takes values until nothing is left once the emissions are over. Gives their number.
fn count_of<F: Polled>(reader: &mut F::Reader, turns: u32, over: &AtomicBool) -> u64 {
    let mut pause = Pause::new(CAPACITY);
    let (mut taken, mut last) = (0, None);
    loop {
        let is_over = over.load(Ordering::SeqCst);
        match F::try_next(reader) {
            Some(value) => {
                assert!(last < Some(value), "{}: not in order", F::NAME);
                last = Some(value);
                taken += 1;
                spend(turns);
                pause.reset();
            }
            None if is_over => return taken,
            None => pause.wait(),
        }
    }
}

fn spend(turns: u32) {
    for _ in 0..turns {
        spin_loop();
    }
}
