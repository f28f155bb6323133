//! Two threads answer each other: each sleeps until the other's value comes. Beside nothing else, and beside busy threads.

use crate::async_broadcasts::AsyncBroadcast;
use crate::busy::Busy;
use crate::crossbeams::Channels;
use crate::figures::{cost, Figure};
#[cfg(feature = "hillgauze")]
use crate::hillgauze_rust::RustLane;
use crate::race::{race, Job};
use crate::states::Watch;
#[cfg(feature = "hillgauze")]
use crate::talks::RustState;
use crate::talks::Talks;
use crate::tokio_broadcast::Broadcast;

const TURNS: u64 = 100_000;
/// Beside busy threads a turn may take some milliseconds.
const BUSY_TURNS: u64 = 100;

pub fn measure() {
    by_all("ping-pong-free", TURNS);
    let busy = Busy::on_all_processors();
    by_all("ping-pong-busy", BUSY_TURNS);
    drop(busy);
}

fn by_all(scenario: &str, turns: u64) {
    turn::<Broadcast>(scenario, turns);
    turn::<AsyncBroadcast>(scenario, turns);
    turn::<Channels>(scenario, turns);
    turn::<Watch>(scenario, turns);
    #[cfg(feature = "hillgauze")]
    turn::<RustLane>(scenario, turns);
    #[cfg(feature = "hillgauze")]
    turn::<RustState>(scenario, turns);
}

/// What it takes that one says a value and hears the answer.
fn turn<F: Talks>(scenario: &str, turns: u64) {
    let figure = Figure {
        peer: F::NAME,
        scenario,
        name: "turn",
    };
    cost(figure, turns, 1, |count| {
        let race = race(jobs::<F>(count));
        assert_eq!(race.others, [count], "{}: a value was lost", F::NAME);
        race.all
    });
}

/// One who asks, and one who answers, which counts the values that came in order.
fn jobs<F: Talks>(count: u64) -> Vec<Job> {
    let (mut asking, mut questions) = F::open(1);
    let (mut answering, mut answers) = F::open(1);
    let (mut question, mut answer) = (questions.remove(0), answers.remove(0));
    let ask = move || {
        for value in 1..=count {
            F::say(&mut asking, value);
            assert_eq!(F::hear(&mut answer), value);
        }
        0
    };
    let reply = move || {
        let mut in_order = 0;
        for value in 1..=count {
            in_order += u64::from(F::hear(&mut question) == value);
            F::say(&mut answering, value);
        }
        in_order
    };
    vec![Box::new(ask), Box::new(reply)]
}
