// error: E0423
use hillgauze::{Sequencer, Ticket};

fn main() {}

fn poll(sequencer: &mut Sequencer<u64>) {
    let _ = sequencer.poll_emit(Ticket(0)); // here
}
