// error: E0382
use hillgauze::Sequencer;
use std::thread;

fn main() {}

fn emit_on_two_threads(mut sequencer: Sequencer<u64>) {
    thread::spawn(move || sequencer.try_emit(0, 1));
    thread::spawn(move || sequencer.try_emit(0, 2)); // here
}
