// What the other programs do, done right.
use hillgauze::{Config, Reader, Sequencer, StateSeat};
use std::thread;

fn lane() -> (Sequencer<u64>, Reader<u64>) {
    let mut sequencer = Sequencer::new(Config { extra: 4, ..Config::default() }).unwrap();
    let reader = sequencer.admit().unwrap();
    (sequencer, reader)
}

fn main() {
    let (mut sequencer, mut reader) = lane();
    let emitting = thread::spawn(move || {
        sequencer.try_emit(0, 1).unwrap();
        sequencer
    });
    fn may_go_to_another_thread(_: impl Send) {}
    may_go_to_another_thread(reader.recv());
    may_go_to_another_thread(reader.recv_many(&mut Vec::new(), 2));
    let reading = thread::spawn(move || {
        reader.recv_blocking();
        reader.close()
    });
    drop((emitting.join(), reading.join()));

    let mut seat = StateSeat::new(0u64, 2).unwrap();
    let mut other = seat.take_seat(0).unwrap();
    thread::scope(|scope| {
        scope.spawn(|| seat.set(1));
        scope.spawn(|| other.set(2));
    });
    let mut collector = other.collect();
    may_go_to_another_thread(collector.recv());
    seat.give_back(collector.cancel()).unwrap();
}
