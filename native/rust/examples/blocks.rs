//! Readings that come in blocks: one thread emits them, as many at once as there is room for, and two add them up.

use hillgauze::{Config, Receiver, Sender, Words};
use std::error::Error;
use std::thread;

type Failure = Box<dyn Error + Send + Sync>;

#[derive(Clone, Copy, PartialEq, Eq)]
struct Reading {
    sensor: u16,
    tenths: i32,
}

hillgauze::word!(Reading {
    sensor: u16,
    tenths: i32
});

/// Emits all of them, in order: one that waits for room, and then as many as there is room for.
fn emit_all(readings: &[Reading], sender: &Sender<Reading, Words>) -> Result<(), Failure> {
    let mut rest = readings;
    while let [next, later @ ..] = rest {
        sender.emit_blocking(*next)?;
        let accepted = sender.try_emit_all(later)?;
        rest = &later[accepted as usize..];
    }
    Ok(())
}

fn sum(mut receiver: Receiver<Reading, Words>, sensor: u16) -> i64 {
    let (mut sum, mut block) = (0, Vec::with_capacity(256));
    while receiver.recv_many_blocking(&mut block, 256) > 0 {
        let own = block.drain(..).filter(|reading| reading.sensor == sensor);
        sum += own.map(|reading| i64::from(reading.tenths)).sum::<i64>();
    }
    sum
}

fn main() -> Result<(), Failure> {
    let sender = Sender::of_words(Config {
        extra: 512,
        ..Config::default()
    })?;
    let mut summing = Vec::new();
    for sensor in 0..2 {
        let receiver = sender.subscribe()?;
        summing.push(thread::spawn(move || sum(receiver, sensor)));
    }
    let readings: Vec<Reading> = (-2_000..8_000)
        .flat_map(|tenths| [0, 1].map(|sensor| Reading { sensor, tenths }))
        .collect();
    emit_all(&readings, &sender)?;
    drop(sender);
    for (sensor, summing) in summing.into_iter().enumerate() {
        println!("sensor {sensor}: {}", summing.join().expect("a sum ends"));
    }
    Ok(())
}
