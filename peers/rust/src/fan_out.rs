//! A thread that emits, and readers on threads of their own. No value is lost: the emitter waits for room.

use crate::async_broadcasts::AsyncBroadcast;
use crate::crossbeams::Channels;
use crate::figures::{rate, sum_below, Figure};
#[cfg(feature = "hillgauze")]
use crate::hillgauze_rust::{RustLane, RustLaneBy};
#[cfg(feature = "hillgauze")]
use crate::hillgauze_senders::Senders;
use crate::lane_model::{Lane, LookingLane};
use crate::mutex_queue::MutexQueue;
use crate::orders::{Strong, Weak};
use crate::race::{race, Job};
use crate::ring::Ring;
use crate::tokio_broadcast::HeldBroadcast;
use crate::{blocked, blocks, polled};
use blocked::Blocked;
#[cfg(feature = "hillgauze")]
use hillgauze::{Slots, Words};
use blocks::Blocks;
use polled::Polled;

const VALUES: u64 = 2_000_000;
const BLOCK: usize = 64;
const VALUES_BY_BLOCK: u64 = 10_000_000;
const CAPACITY: usize = 1024;

/// One measurement of several peers.
struct FanOut {
    scenario: String,
    readers: usize,
    /// How many values there are at most.
    values: u64,
    /// What the name of a peer ends with whose calls have one value each.
    suffix: &'static str,
}

pub fn measure() {
    for readers in [1, 2, 4, 16, 32] {
        let fan_out = FanOut {
            scenario: format!("fan-out-n{readers}"),
            readers,
            values: VALUES,
            suffix: "",
        };
        fan_out.by_values();
        fan_out.by_polls::<MutexQueue>();
        fan_out.by_waits::<MutexQueue>();
        #[cfg(feature = "hillgauze")]
        fan_out.by_polls::<RustLane>();
        #[cfg(feature = "hillgauze")]
        fan_out.by_waits::<RustLane>();
        #[cfg(feature = "hillgauze")]
        fan_out.by_waits::<Senders<Slots>>();
        #[cfg(feature = "hillgauze")]
        fan_out.by_waits::<Senders<Words>>();
        fan_out.by_polls::<Lane>();
        fan_out.by_polls::<LookingLane>();
        fan_out.by_polls::<Ring<Strong>>();
        fan_out.by_polls::<Ring<Weak>>();
    }
}

/// By the block where a peer has such calls.
pub fn measure_by_block() {
    for readers in [1, 2, 4] {
        let fan_out = FanOut {
            scenario: format!("fan-out-by{BLOCK}-n{readers}"),
            readers,
            values: VALUES_BY_BLOCK,
            suffix: "-by1",
        };
        fan_out.by_values();
        fan_out.by_blocks::<MutexQueue>(<MutexQueue as Polled>::NAME);
        #[cfg(feature = "hillgauze")]
        fan_out.by_blocks::<RustLane>(<RustLane as Polled>::NAME);
        #[cfg(feature = "hillgauze")]
        fan_out.waits::<RustLaneBy<BLOCK>>(<RustLane as Blocked>::NAME);
        fan_out.by_blocks::<Lane>(&format!("{}-by{BLOCK}", Lane::NAME));
    }
}

impl FanOut {
    /// Peers without calls for many values.
    fn by_values(&self) {
        self.by_polls::<HeldBroadcast>();
        self.by_waits::<HeldBroadcast>();
        self.by_polls::<AsyncBroadcast>();
        self.by_waits::<AsyncBroadcast>();
        self.by_polls::<Channels>();
        self.by_waits::<Channels>();
    }

    fn by_polls<F: Polled>(&self) {
        self.values(&format!("{}{}", F::NAME, self.suffix), |count| {
            polled::jobs::<F>(CAPACITY, self.readers, count)
        });
    }

    fn by_waits<F: Blocked>(&self) {
        self.waits::<F>(&format!("{}{}", F::NAME, self.suffix));
    }

    fn waits<F: Blocked>(&self, peer: &str) {
        self.values(peer, |count| {
            blocked::jobs::<F>(CAPACITY, self.readers, count)
        });
    }

    fn by_blocks<F: Blocks>(&self, peer: &str) {
        self.values(peer, |count| {
            blocks::jobs::<F>(CAPACITY, self.readers, count, BLOCK)
        });
    }

    fn values(&self, peer: &str, jobs: impl Fn(u64) -> Vec<Job>) {
        let figure = Figure {
            peer,
            scenario: &self.scenario,
            name: "values",
        };
        rate(figure, self.values, |count| {
            let race = race(jobs(count));
            for sum in race.others {
                assert_eq!(sum, sum_below(count), "{peer}: a value was lost");
            }
            race.all
        });
    }
}
