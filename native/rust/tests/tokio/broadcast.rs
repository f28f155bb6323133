//! A lane that drops the oldest values, as tokio's `broadcast` does.

use crate::task::Task;
use hillgauze::{Begun, Config, Emit, Policy, Reader, Refusal, Sequencer, Taken, Ticket, Tried};
use std::task::Poll;

fn channel(extra: u64) -> Sequencer<u32> {
    let config = Config {
        extra,
        policy: Policy::DropOldest,
        ..Config::default()
    };
    Sequencer::new(config).unwrap()
}

fn send(sequencer: &mut Sequencer<u32>, values: impl IntoIterator<Item = u32>) {
    for value in values {
        assert!(matches!(
            sequencer.try_emit(0, value),
            Ok(Tried::Accepted(_))
        ));
    }
}

fn waiting(begun: Result<Begun, Refusal>) -> Ticket {
    match begun {
        Ok(Begun::Waiting(ticket)) => ticket,
        other => panic!("it doesn't wait: {other:?}"),
    }
}

fn poll(task: &Task, reader: &mut Reader<u32>) -> Poll<Option<u32>> {
    task.poll(|context| reader.poll_next(context))
}

/// What is there now.
fn all(reader: &mut Reader<u32>) -> Vec<u32> {
    reader.try_iter().collect()
}

#[test]
fn each_of_two_readers_gets_each_value_once() {
    let mut sequencer = channel(16);
    let mut readers = [sequencer.admit().unwrap(), sequencer.admit().unwrap()];
    assert_eq!(
        readers.each_mut().map(Reader::try_next),
        [Taken::Nothing; 2]
    );
    send(&mut sequencer, [1]);
    assert_eq!(
        readers.each_mut().map(Reader::try_next),
        [Taken::Value(1); 2]
    );
    assert_eq!(
        readers.each_mut().map(Reader::try_next),
        [Taken::Nothing; 2]
    );
}

#[test]
fn an_emission_wakes_those_who_found_nothing_and_no_other() {
    let mut sequencer = channel(16);
    let (mut one, mut two) = (sequencer.admit().unwrap(), sequencer.admit().unwrap());
    let (first, second) = (Task::default(), Task::default());
    assert_eq!(poll(&first, &mut one), Poll::Pending);
    assert_eq!(poll(&second, &mut two), Poll::Pending);
    send(&mut sequencer, [1]);
    assert!(first.is_woken() && second.is_woken());
    assert_eq!(poll(&first, &mut one), Poll::Ready(Some(1)));
    assert_eq!(poll(&second, &mut two), Poll::Ready(Some(1)));

    assert_eq!(poll(&first, &mut one), Poll::Pending);
    send(&mut sequencer, [2]);
    assert!(first.is_woken() && !second.is_woken());
    assert_eq!(poll(&first, &mut one), Poll::Ready(Some(2)));
    assert_eq!(poll(&second, &mut two), Poll::Ready(Some(2)));
}

#[test]
fn of_two_tasks_the_one_that_polled_last_is_woken() {
    let mut sequencer = channel(1);
    let mut reader = sequencer.admit().unwrap();
    let (first, second) = (Task::default(), Task::default());
    assert_eq!(poll(&first, &mut reader), Poll::Pending);
    assert_eq!(poll(&second, &mut reader), Poll::Pending);
    send(&mut sequencer, [1]);
    assert!(second.is_woken() && !first.is_woken());
}

#[test]
fn a_slow_reader_gets_all_that_it_has_places_for() {
    let mut sequencer = channel(16);
    let (mut quick, mut slow) = (sequencer.admit().unwrap(), sequencer.admit().unwrap());
    for value in 1..=3 {
        send(&mut sequencer, [value]);
        assert_eq!(quick.try_next(), Taken::Value(value));
    }
    assert_eq!(all(&mut slow), [1, 2, 3]);
}

#[test]
fn a_reader_that_is_dropped_frees_its_place_and_the_other_goes_on() {
    let mut sequencer = channel(16);
    let (mut one, two) = (sequencer.admit().unwrap(), sequencer.admit().unwrap());
    send(&mut sequencer, [1, 2]);
    drop(two);
    assert_eq!(sequencer.live(), 1);
    assert_eq!(all(&mut one), [1, 2]);
}

#[test]
fn a_reader_that_lags_loses_its_oldest_values_and_goes_on() {
    let mut sequencer = channel(2);
    let (mut quick, mut slow) = (sequencer.admit().unwrap(), sequencer.admit().unwrap());
    send(&mut sequencer, [1, 2]);
    assert_eq!(quick.try_next(), Taken::Value(1));
    send(&mut sequencer, [3]);
    assert_eq!(slow.try_next(), Taken::Value(2));
    assert_eq!((slow.received(), slow.dropped()), (1, 1));
    assert_eq!(all(&mut quick), [2, 3]);
    send(&mut sequencer, [4, 5, 6]);
    assert_eq!(slow.try_next(), Taken::Value(5));
    assert_eq!((slow.received(), slow.dropped()), (2, 3));
}

#[test]
fn without_a_reader_an_emission_is_accepted_and_a_late_one_begins_after_it() {
    let mut sequencer = channel(16);
    send(&mut sequencer, [1]);
    let mut reader = sequencer.admit().unwrap();
    send(&mut sequencer, [2]);
    assert_eq!(all(&mut reader), [2]);
}

#[test]
fn a_late_reader_begins_where_the_others_are_now() {
    let mut sequencer = channel(3);
    let mut early = sequencer.admit().unwrap();
    send(&mut sequencer, [1]);
    let mut late = sequencer.admit().unwrap();
    assert_eq!(late.try_next(), Taken::Nothing);
    send(&mut sequencer, [2, 3]);
    assert_eq!(all(&mut late), [2, 3]);
    assert_eq!(all(&mut early), [1, 2, 3]);
}

#[test]
fn a_late_reader_lost_nothing_where_an_early_one_lags() {
    let mut sequencer = channel(1);
    let mut early = sequencer.admit().unwrap();
    send(&mut sequencer, [1, 2]);
    let mut late = sequencer.admit().unwrap();
    assert_eq!(all(&mut late), []);
    assert_eq!(all(&mut early), [2]);
    assert_eq!((early.dropped(), late.dropped()), (1, 0));
}

#[test]
fn capacities_out_of_range_are_refused() {
    let made = |extra| {
        let config = Config {
            extra,
            policy: Policy::DropOldest,
            ..Config::default()
        };
        Sequencer::<u32>::new(config).err()
    };
    assert_eq!(made(0), Some(Refusal::PolicyNeedsBuffer));
    assert_eq!(made(1), None);
    assert_eq!(made(u64::MAX), Some(Refusal::TooLarge));
}

#[test]
fn the_end_wakes_all_who_wait() {
    let mut sequencer = channel(16);
    let (mut one, mut two) = (sequencer.admit().unwrap(), sequencer.admit().unwrap());
    let (first, second) = (Task::default(), Task::default());
    assert_eq!(poll(&first, &mut one), Poll::Pending);
    assert_eq!(poll(&second, &mut two), Poll::Pending);
    drop(sequencer);
    assert!(first.is_woken() && second.is_woken());
    assert_eq!(poll(&first, &mut one), Poll::Ready(None));
    assert_eq!(poll(&second, &mut two), Poll::Ready(None));
}

/// What a reader of a lane with so many places receives of the values from 1 on, where the sequencer is gone before it
/// asks, and how many it lost.
fn received_after_the_end(extra: u64, last: u32) -> (Vec<u32>, u64) {
    let mut sequencer = channel(extra);
    let mut reader = sequencer.admit().unwrap();
    send(&mut sequencer, 1..=last);
    drop(sequencer);
    let mut values = Vec::new();
    while let Some(value) = reader.recv_blocking() {
        values.push(value);
    }
    (values, reader.dropped())
}

#[test]
fn what_was_accepted_is_received_after_the_end() {
    assert_eq!(received_after_the_end(1, 0), (vec![], 0));
    assert_eq!(received_after_the_end(1, 1), (vec![1], 0));
    assert_eq!(received_after_the_end(2, 2), (vec![1, 2], 0));
}

#[test]
fn a_reader_that_lagged_finds_the_rest_after_the_end() {
    assert_eq!(received_after_the_end(1, 2), (vec![2], 1));
    assert_eq!(received_after_the_end(2, 3), (vec![2, 3], 1));
    assert_eq!(received_after_the_end(2, 4), (vec![3, 4], 2));
}

#[test]
fn a_reader_that_lagged_finds_nothing_more_while_the_lane_is_open() {
    let mut sequencer = channel(2);
    let mut reader = sequencer.admit().unwrap();
    send(&mut sequencer, 1..=3);
    assert_eq!(all(&mut reader), [2, 3]);
    assert_eq!(
        reader.recv_timeout(std::time::Duration::ZERO),
        Err(hillgauze::RecvTimeoutError::Timeout)
    );
}

#[test]
fn whatever_lets_an_emission_in_wakes_and_nothing_else_does() {
    let config = Config {
        extra: 1,
        ..Config::default()
    };
    let mut sequencer = Sequencer::new(config).unwrap();
    let (mut slow, mut quick) = (sequencer.admit().unwrap(), sequencer.admit().unwrap());
    let task = Task::default();
    assert_eq!(poll(&task, &mut quick), Poll::Pending);
    assert_eq!(sequencer.start_emit(0, 1), Ok(Begun::Accepted(0)));
    assert!(task.is_woken());
    assert_eq!(poll(&task, &mut quick), Poll::Ready(Some(1)));

    assert_eq!(poll(&task, &mut quick), Poll::Pending);
    assert_eq!(sequencer.try_emit(0, 2), Ok(Tried::Full));
    assert!(!task.is_woken());
    let first = waiting(sequencer.start_emit(0, 2));
    assert_eq!(poll(&task, &mut quick), Poll::Pending);
    assert_eq!(slow.try_next(), Taken::Value(1));
    assert_eq!(sequencer.try_emit(0, 3), Ok(Tried::Full));
    assert!(task.is_woken());
    assert_eq!(poll(&task, &mut quick), Poll::Ready(Some(2)));

    assert_eq!(sequencer.poll_emit(first), Emit::Done(1));
    let second = waiting(sequencer.start_emit(0, 4));
    assert_eq!((first.number(), second.number()), (0, 1));
    assert_eq!(poll(&task, &mut quick), Poll::Pending);
    assert_eq!(slow.try_next(), Taken::Value(2));
    assert_eq!(sequencer.scan(), 1);
    assert!(task.is_woken());
    assert_eq!(poll(&task, &mut quick), Poll::Ready(Some(4)));
}
