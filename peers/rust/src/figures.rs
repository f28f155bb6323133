//! How often a measurement is made, and the line that each figure has.

use std::time::{Duration, Instant};

const REPEATS: usize = 5;
/// The longest that one repeat is meant to take. A slower peer gets fewer values, at least a hundredth.
const REPEAT_SECONDS: f64 = 0.20;

/// What is measured: the first three columns of a line.
#[derive(Clone, Copy)]
pub struct Figure<'a> {
    pub peer: &'a str,
    pub scenario: &'a str,
    pub name: &'a str,
}

/// What a figure is counted in.
#[derive(Clone, Copy, PartialEq)]
pub enum Unit {
    /// Nanoseconds for an operation.
    Nanoseconds,
    /// Millions of operations in a second.
    MillionsASecond,
    Percent,
}

impl Unit {
    fn name(self) -> &'static str {
        match self {
            Unit::Nanoseconds => "ns",
            Unit::MillionsASecond => "M/s",
            Unit::Percent => "%",
        }
    }
}

/// Writes the peer, the scenario, the figure, its unit, the best, the median and the number of values, parted by tabs.
pub fn report(figure: Figure<'_>, unit: Unit, mut samples: Vec<f64>, count: u64) {
    samples.sort_by(f64::total_cmp);
    let median = samples[samples.len() / 2];
    let best = if unit == Unit::Nanoseconds {
        samples[0]
    } else {
        samples[samples.len() - 1]
    };
    let Figure {
        peer,
        scenario,
        name,
    } = figure;
    let unit = unit.name();
    println!("{peer}\t{scenario}\t{name}\t{unit}\t{best:.3}\t{median:.3}\t{count}");
}

/// Runs `once` with as many values, up to `most`, as a first, shorter run allows. Gives that number and each result.
pub fn repeats<R>(most: u64, mut once: impl FnMut(u64) -> R) -> (u64, Vec<R>) {
    let few = (most / 100).max(1_000).min(most);
    let start = Instant::now();
    once(few);
    let projected = start.elapsed().as_secs_f64() * most as f64 / few as f64;
    let share = (REPEAT_SECONDS / projected).min(1.0);
    let count = ((most as f64 * share) as u64).max(few);
    (count, (0..REPEATS).map(|_| once(count)).collect())
}

/// A figure in nanoseconds for each of `each` operations a value.
pub fn cost(figure: Figure<'_>, most: u64, each: usize, once: impl FnMut(u64) -> Duration) {
    let (count, times) = repeats(most, once);
    let operations = count as f64 * each as f64;
    let samples = times.iter().map(|time| time.as_nanos() as f64 / operations);
    report(figure, Unit::Nanoseconds, samples.collect(), count);
}

/// A figure in millions of values a second.
pub fn rate(figure: Figure<'_>, most: u64, once: impl FnMut(u64) -> Duration) {
    let (count, times) = repeats(most, once);
    let samples = times
        .iter()
        .map(|time| count as f64 / time.as_secs_f64() / 1e6);
    report(figure, Unit::MillionsASecond, samples.collect(), count);
}

/// How long `run` takes. Its result can't be left out.
pub fn timed(run: impl FnOnce() -> u64) -> Duration {
    let start = Instant::now();
    std::hint::black_box(run());
    start.elapsed()
}

/// The sum of the numbers below `count`.
pub fn sum_below(count: u64) -> u64 {
    count * (count - 1) / 2
}
