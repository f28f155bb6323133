// error: E0499
use hillgauze::Sequencer;
use std::thread;

fn main() {}

fn emit_on_two_threads(sequencer: &mut Sequencer<u64>) {
    thread::scope(|scope| {
        scope.spawn(|| sequencer.try_emit(0, 1));
        scope.spawn(|| sequencer.try_emit(0, 2)); // here
    });
}
