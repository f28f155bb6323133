// error: E0277
use hillgauze::{Reader, Taken};
use std::thread;

fn main() {}

fn count_on_two_threads(reader: &mut Reader<u64>) {
    while reader.try_next() != Taken::Nothing {}
    let reader = &*reader;
    thread::scope(|scope| {
        scope.spawn(|| reader.received()); // here
        reader.dropped()
    });
}
