// error: E0277
use hillgauze::{Config, SharedState};

fn main() {}

fn make() {
    let _flow: Result<SharedState<String>, _> = SharedState::new(Config::default()); // here
}
