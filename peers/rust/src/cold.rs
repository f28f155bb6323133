//! Cold flows: a range through map, filter and fold, and two ranges zipped.

use crate::figures::{cost, timed, Figure};
use futures::executor::block_on;
use futures::stream::{self, StreamExt};
use std::future::ready;
use std::hint::black_box;

const VALUES: u64 = 10_000_000;

/// A range that the optimiser can't see through: each of its values passes a barrier.
fn opaque(count: u64) -> impl Iterator<Item = u64> {
    (0..count).map(black_box)
}

fn plus_one(value: u64) -> u64 {
    value.wrapping_add(1)
}

fn is_even(value: &u64) -> bool {
    value % 2 == 0
}

/// No sum, since the optimiser knows the sum of two ranges without a loop.
fn mix(one: u64, other: u64) -> u64 {
    one.wrapping_mul(3) ^ other
}

pub fn measure() {
    chains();
    zips();
}

fn element(peer: &str, scenario: &str, run: impl Fn(u64) -> u64) {
    let name = "element";
    let figure = Figure {
        peer,
        scenario,
        name,
    };
    cost(figure, VALUES, 1, |count| timed(|| run(black_box(count))));
}

fn chains() {
    element("std-iter", "cold-chain", |count| chained(0..count));
    element("std-iter-opaque", "cold-chain", |count| {
        chained(opaque(count))
    });
    element("futures-stream", "cold-chain", |count| streamed(0..count));
    element("futures-stream-opaque", "cold-chain", |count| {
        streamed(opaque(count))
    });
}

fn chained(range: impl Iterator<Item = u64>) -> u64 {
    range
        .map(plus_one)
        .filter(is_even)
        .fold(0, u64::wrapping_add)
}

fn streamed(range: impl Iterator<Item = u64>) -> u64 {
    block_on(
        stream::iter(range)
            .map(plus_one)
            .filter(|value| ready(is_even(value)))
            .fold(0u64, |sum, value| ready(sum.wrapping_add(value))),
    )
}

fn zips() {
    element("std-iter", "cold-zip", |count| zipped(0..count, count));
    element("std-iter-opaque", "cold-zip", |count| {
        zipped(opaque(count), count)
    });
    element("futures-stream", "cold-zip", |count| {
        zipped_streams(0..count, count)
    });
    element("futures-stream-opaque", "cold-zip", |count| {
        zipped_streams(opaque(count), count)
    });
}

fn zipped(range: impl Iterator<Item = u64>, count: u64) -> u64 {
    range
        .zip(1..count + 1)
        .fold(0, |sum, (one, other)| sum.wrapping_add(mix(one, other)))
}

fn zipped_streams(range: impl Iterator<Item = u64>, count: u64) -> u64 {
    block_on(
        stream::iter(range)
            .zip(stream::iter(1..count + 1))
            .fold(0u64, |sum, (one, other)| {
                ready(sum.wrapping_add(mix(one, other)))
            }),
    )
}
