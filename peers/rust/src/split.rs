//! A buffer between two threads. No value is lost: the producer waits for room.

use crate::crossbeams::Channels;
use crate::figures::{cost, sum_below, Figure};
use crate::mutex_queue::MutexQueue;
use crate::orders::{Strong, Weak};
use crate::pipes::{FuturesChannel, SyncChannel, TokioChannel};
use crate::race::{race, Job};
use crate::ring::Ring;
use crate::{blocked, polled};
use blocked::Blocked;
use polled::Polled;

const VALUES: u64 = 5_000_000;

pub fn measure() {
    for capacity in [4, 64, 1024] {
        by_polls::<Channels>(capacity);
        by_waits::<Channels>(capacity);
        by_waits::<SyncChannel>(capacity);
        by_waits::<TokioChannel>(capacity);
        by_waits::<FuturesChannel>(capacity);
        by_waits::<MutexQueue>(capacity);
        by_polls::<Ring<Strong>>(capacity);
        by_polls::<Ring<Weak>>(capacity);
    }
}

fn by_polls<F: Polled>(capacity: usize) {
    value(F::NAME, capacity, |count| {
        polled::jobs::<F>(capacity, 1, count)
    });
}

fn by_waits<F: Blocked>(capacity: usize) {
    value(F::NAME, capacity, |count| {
        blocked::jobs::<F>(capacity, 1, count)
    });
}

fn value(peer: &str, capacity: usize, jobs: impl Fn(u64) -> Vec<Job>) {
    let figure = Figure {
        peer,
        scenario: &format!("split-k{capacity}"),
        name: "value",
    };
    cost(figure, VALUES, 1, |count| {
        let race = race(jobs(count));
        assert_eq!(race.others, [sum_below(count)], "{peer}: a value was lost");
        race.all
    });
}
