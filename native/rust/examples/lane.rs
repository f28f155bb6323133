//! One thread emits the numbers up to a hundred, and another sums up what it receives.

use hillgauze::{Config, Refusal, Sequencer, Tried};
use std::thread;

fn main() -> Result<(), Refusal> {
    let mut sequencer = Sequencer::new(Config {
        extra: 4,
        ..Config::default()
    })?;
    let mut reader = sequencer.admit()?;
    let summing = thread::spawn(move || std::iter::from_fn(|| reader.recv_blocking()).sum::<u64>());
    for value in 1..=100 {
        while sequencer.try_emit(0, value)? == Tried::Full {
            thread::yield_now();
        }
    }
    drop(sequencer);
    println!("{}", summing.join().unwrap());
    Ok(())
}
