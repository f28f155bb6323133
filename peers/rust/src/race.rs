//! Threads that start at once.

use std::sync::{Arc, Barrier};
use std::thread;
use std::time::{Duration, Instant};

/// What a thread does. It gives a sum or a count, which is checked.
pub type Job = Box<dyn FnOnce() -> u64 + Send>;

/// What came of a race.
pub struct Race {
    /// From the start to the end of the last job.
    pub all: Duration,
    /// From the start to the end of the first job, which is the one that emits.
    pub first: Duration,
    /// What the other jobs gave.
    pub others: Vec<u64>,
}

/// Runs each job in a thread of its own.
pub fn race(jobs: Vec<Job>) -> Race {
    let gate = Arc::new(Barrier::new(jobs.len()));
    let threads: Vec<_> = jobs
        .into_iter()
        .map(|job| {
            let gate = gate.clone();
            thread::spawn(move || {
                gate.wait();
                let start = Instant::now();
                let result = job();
                (start, Instant::now(), result)
            })
        })
        .collect();
    let runs: Vec<_> = threads.into_iter().map(|t| t.join().unwrap()).collect();
    let start = runs.iter().map(|run| run.0).min().unwrap();
    let end = runs.iter().map(|run| run.1).max().unwrap();
    Race {
        all: end - start,
        first: runs[0].1 - runs[0].0,
        others: runs[1..].iter().map(|run| run.2).collect(),
    }
}
