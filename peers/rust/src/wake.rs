//! One emission to readers that all sleep, each in a thread of its own: from its begin until the last of them has it.

use crate::async_broadcasts::AsyncBroadcast;
use crate::crossbeams::Channels;
use crate::figures::{cost, Figure};
#[cfg(feature = "hillgauze")]
use crate::hillgauze_rust::RustLane;
#[cfg(feature = "hillgauze")]
use crate::hillgauze_senders::Senders;
use crate::states::Watch;
#[cfg(feature = "hillgauze")]
use crate::talks::RustState;
use crate::talks::Talks;
use crate::tokio_broadcast::Broadcast;
#[cfg(feature = "hillgauze")]
use hillgauze::{Slots, Words};
use std::sync::atomic::{AtomicU64, Ordering::SeqCst};
use std::sync::Arc;
use std::thread;
use std::time::{Duration, Instant};

const EMISSIONS: u64 = 100;
/// After so long all readers sleep.
const REST: Duration = Duration::from_micros(500);

pub fn measure() {
    for readers in [16, 64] {
        by::<Broadcast>(readers);
        by::<AsyncBroadcast>(readers);
        by::<Channels>(readers);
        // with 64 readers an emission takes some fiftieth of a second
        if readers == 16 {
            by::<Watch>(readers);
        }
        #[cfg(feature = "hillgauze")]
        by::<RustLane>(readers);
        #[cfg(feature = "hillgauze")]
        by::<Senders<Slots>>(readers);
        #[cfg(feature = "hillgauze")]
        by::<Senders<Words>>(readers);
        #[cfg(feature = "hillgauze")]
        by::<RustState>(readers);
    }
}

fn by<F: Talks>(readers: usize) {
    let figure = Figure {
        peer: F::NAME,
        scenario: &format!("wake-n{readers}"),
        name: "all",
    };
    cost(figure, EMISSIONS, 1, |count| emitted::<F>(readers, count));
}

/// What the readers say: how many values all of them heard, and when one was heard last, in nanoseconds.
struct Heard {
    epoch: Instant,
    values: AtomicU64,
    last: AtomicU64,
}

impl Heard {
    fn now(&self) -> u64 {
        self.epoch.elapsed().as_nanos() as u64
    }

    fn one(&self) {
        self.last.fetch_max(self.now(), SeqCst);
        self.values.fetch_add(1, SeqCst);
    }

    /// Rests until so many values were heard, and then gives when the last one was.
    fn rest_until(&self, values: u64) -> u64 {
        while self.values.load(SeqCst) < values {
            thread::sleep(REST);
        }
        self.last.load(SeqCst)
    }
}

/// What so many emissions take together, without the rests between them.
fn emitted<F: Talks>(readers: usize, count: u64) -> Duration {
    let (mut emitter, all) = F::open(readers);
    let heard = Arc::new(Heard {
        epoch: Instant::now(),
        values: AtomicU64::new(0),
        last: AtomicU64::new(0),
    });
    let hearing = |mut reader| {
        let heard = heard.clone();
        thread::spawn(move || {
            for value in 1..=count {
                assert_eq!(F::hear(&mut reader), value, "{}: a value was lost", F::NAME);
                heard.one();
            }
        })
    };
    let threads: Vec<_> = all.into_iter().map(hearing).collect();
    let mut nanoseconds = 0;
    for value in 1..=count {
        thread::sleep(REST);
        let start = heard.now();
        F::say(&mut emitter, value);
        nanoseconds += heard.rest_until(value * readers as u64) - start;
    }
    for thread in threads {
        thread.join().unwrap();
    }
    Duration::from_nanos(nanoseconds)
}
