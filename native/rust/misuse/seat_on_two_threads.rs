// error: E0277
use hillgauze::StateSeat;
use std::thread;

fn main() {}

fn read_on_two_threads(seat: &StateSeat<u64>) {
    thread::scope(|scope| {
        scope.spawn(|| seat.value()); // here
        seat.value()
    });
}
