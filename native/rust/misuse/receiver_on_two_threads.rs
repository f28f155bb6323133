// error: E0277
use hillgauze::Receiver;
use std::thread;

fn main() {}

fn count_on_two_threads(receiver: &Receiver<String>) {
    thread::scope(|scope| {
        scope.spawn(|| receiver.received()); // here
        receiver.received()
    });
}
