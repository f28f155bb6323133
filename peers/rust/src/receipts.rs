//! One thread: a value is emitted, then each reader takes it; or a block of values.

use crate::async_broadcasts::AsyncBroadcast;
use crate::blocks::{count_from, sum_of_values, Blocks};
use crate::crossbeams::Channels;
use crate::figures::{cost, sum_below, timed, Figure};
#[cfg(feature = "hillgauze")]
use crate::hillgauze_rust::RustLane;
#[cfg(feature = "hillgauze")]
use crate::hillgauze_senders::Senders;
use crate::lane_model::Lane;
use crate::mutex_queue::MutexQueue;
use crate::orders::{Strong, Weak};
use crate::polled::Polled;
use crate::ring::Ring;
use crate::tokio_broadcast::Broadcast;
#[cfg(feature = "hillgauze")]
use hillgauze::{Slots, Words};

const VALUES: u64 = 2_000_000;
const CAPACITY: usize = 64;
const BLOCK: usize = 16;

pub fn measure() {
    for readers in [1, 4, 8] {
        by_values::<Broadcast>(readers);
        by_values::<AsyncBroadcast>(readers);
        by_values::<Channels>(readers);
        by_values::<MutexQueue>(readers);
        #[cfg(feature = "hillgauze")]
        by_values::<RustLane>(readers);
        #[cfg(feature = "hillgauze")]
        by_values::<Senders<Slots>>(readers);
        #[cfg(feature = "hillgauze")]
        by_values::<Senders<Words>>(readers);
        by_values::<Lane>(readers);
        by_values::<Ring<Strong>>(readers);
        by_values::<Ring<Weak>>(readers);
    }
}

/// By the block where a peer has such calls. The others emit as many values before any is taken.
pub fn measure_by_block() {
    for readers in [1, 4, 8] {
        by_values_of_a_block::<Broadcast>(readers);
        by_values_of_a_block::<AsyncBroadcast>(readers);
        by_values_of_a_block::<Channels>(readers);
        by_blocks::<MutexQueue>(<MutexQueue as Polled>::NAME, readers);
        #[cfg(feature = "hillgauze")]
        by_blocks::<RustLane>(<RustLane as Polled>::NAME, readers);
        by_blocks::<Lane>(&format!("{}-by{BLOCK}", Lane::NAME), readers);
    }
}

fn by_values<F: Polled>(readers: usize) {
    let scenario = format!("receipts-n{readers}");
    receipt(F::NAME, &scenario, readers, |count| {
        sum_by_values::<F, 1>(readers, count)
    });
}

fn by_values_of_a_block<F: Polled>(readers: usize) {
    let scenario = format!("receipts-by{BLOCK}-n{readers}");
    receipt(&format!("{}-by1", F::NAME), &scenario, readers, |count| {
        sum_by_values::<F, { BLOCK as u64 }>(readers, count)
    });
}

fn by_blocks<F: Blocks>(peer: &str, readers: usize) {
    let scenario = format!("receipts-by{BLOCK}-n{readers}");
    receipt(peer, &scenario, readers, |count| {
        sum_by_blocks::<F>(readers, count)
    });
}

/// Measures what takes so many values by each reader, and gives their sum.
fn receipt(peer: &str, scenario: &str, readers: usize, sum_of: impl Fn(u64) -> u64) {
    let figure = Figure {
        peer,
        scenario,
        name: "receipt",
    };
    cost(figure, VALUES, readers, |count| {
        timed(|| {
            let sum = sum_of(count);
            assert_eq!(sum, sum_below(count).wrapping_mul(readers as u64));
            sum
        })
    });
}

/// So many values are emitted before each reader takes them.
fn sum_by_values<F: Polled, const AT_ONCE: u64>(readers: usize, count: u64) -> u64 {
    let (mut emitter, mut readers) = F::open(CAPACITY, readers);
    let (mut first, mut sum) = (0, 0u64);
    while first < count {
        let end = count.min(first + AT_ONCE);
        for value in first..end {
            assert!(F::try_emit(&mut emitter, value));
        }
        for reader in &mut readers {
            for _ in first..end {
                sum = sum.wrapping_add(F::try_next(reader).unwrap());
            }
        }
        first = end;
    }
    sum
}

fn sum_by_blocks<F: Blocks>(readers: usize, count: u64) -> u64 {
    let (mut emitter, mut readers) = F::open(CAPACITY, readers);
    let mut emitted = [0; BLOCK];
    let mut taken = Vec::with_capacity(BLOCK);
    let mut sum = 0u64;
    for first in (0..count).step_by(BLOCK) {
        let block = &mut emitted[..(count - first).min(BLOCK as u64) as usize];
        count_from(first, block);
        assert_eq!(F::try_emit_all(&mut emitter, block), block.len());
        for reader in &mut readers {
            taken.clear();
            F::try_next_all(reader, &mut taken, BLOCK);
            sum = sum.wrapping_add(sum_of_values(&taken));
        }
    }
    sum
}
