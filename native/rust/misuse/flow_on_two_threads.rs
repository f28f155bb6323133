// error: E0277
use hillgauze::{SharedState, SubId};
use std::thread;

fn main() {}

fn count_on_two_threads(flow: &SharedState<u64>, only: SubId) {
    thread::scope(|scope| {
        scope.spawn(|| flow.pending(only)); // here
        flow.subscription_count()
    });
}
