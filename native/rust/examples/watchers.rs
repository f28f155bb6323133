//! A state that two threads count up, and watchers who see it change: each gets the last value, and may miss others.

use hillgauze::{Collector, Refusal, StateSeat};
use std::thread;

fn watch(mut collector: Collector<u64>) -> (usize, u64) {
    let (mut seen, mut last) = (0, 0);
    for value in collector.iter() {
        assert!(value > last || seen == 0, "a state's values come in order");
        (seen, last) = (seen + 1, value);
    }
    (seen, last)
}

fn count(seat: &mut StateSeat<u64>) {
    for _ in 0..10_000 {
        seat.update(|value| value + 1);
    }
}

fn main() -> Result<(), Refusal> {
    let mut seat = StateSeat::new(0, 4)?;
    let mut other = seat.take_seat(0)?;
    let mut watching = Vec::new();
    for _ in 0..2 {
        let collector = seat.take_seat(0)?.collect();
        watching.push(thread::spawn(move || watch(collector)));
    }
    thread::scope(|scope| {
        for seat in [&mut seat, &mut other] {
            scope.spawn(move || count(seat));
        }
    });
    drop((seat, other));
    for watching in watching {
        let (seen, last) = watching.join().expect("a watcher ends");
        println!(
            "a watcher saw {} values, and last {last}",
            if seen > 0 { "some" } else { "no" }
        );
    }
    Ok(())
}
