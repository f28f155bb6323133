// error: E0423
use hillgauze::{SharedState, SubId};

fn main() {}

fn next(flow: &mut SharedState<u64>) {
    let _ = flow.next(SubId(0)); // here
}
