//! Emissions that wait: who accepts them, in which order, and how they end.

use crate::calls::{all, with_places};
use crate::task::Task;
use hillgauze::{Emission, EmitError, Emitted, Receiver, Sender, Storage};
use std::future::Future;
use std::mem;
use std::pin::Pin;
use std::task::Poll;

fn poll<T, S: Storage<T>>(
    task: &Task,
    emission: &mut Emission<'_, T, S>,
) -> Poll<Result<Emitted, EmitError<T>>> {
    task.poll(|context| Pin::new(emission).poll(context))
}

fn poll_recv<T, S: Storage<T>>(task: &Task, receiver: &mut Receiver<T, S>) -> Poll<Option<T>> {
    task.poll(|context| receiver.poll_next(context))
}

fn accepted<T>(number: u64) -> Poll<Result<Emitted, EmitError<T>>> {
    Poll::Ready(Ok(Emitted::Accepted(number)))
}

fn full(places: u64) -> (Sender<String>, Receiver<String>) {
    let sender = Sender::new(with_places(places)).unwrap();
    let receiver = sender.subscribe().unwrap();
    for number in 0..places {
        assert!(sender.try_emit(number.to_string()).is_ok());
    }
    (sender, receiver)
}

#[test]
fn a_receipt_lets_in_what_waits_and_wakes_it() {
    let (sender, mut receiver) = full(2);
    let task = Task::default();
    let mut emission = sender.emit("2".to_string());
    assert_eq!(sender.waiting_count(), 0);
    assert_eq!(poll(&task, &mut emission), Poll::Pending);
    assert_eq!(sender.waiting_count(), 1);
    assert_eq!(poll(&task, &mut emission), Poll::Pending);
    assert!(!task.is_woken());
    assert_eq!(receiver.try_recv().unwrap(), "0");
    assert!(task.is_woken());
    // It was accepted before its task looks.
    assert_eq!((sender.waiting_count(), all(&mut receiver).len()), (0, 2));
    assert_eq!(poll(&task, &mut emission), accepted(2));
}

#[test]
fn the_slowest_receiver_decides_and_who_leaves_makes_room() {
    let (sender, mut quick) = full(1);
    let slow = sender.subscribe().unwrap();
    assert_eq!(quick.try_recv().unwrap(), "0");
    assert!(sender.try_emit("1".to_string()).is_ok());
    let task = Task::default();
    let mut emission = sender.emit("2".to_string());
    assert_eq!(poll(&task, &mut emission), Poll::Pending);
    assert_eq!(quick.try_recv().unwrap(), "1");
    assert!(!task.is_woken());
    drop(slow);
    assert!(task.is_woken());
    assert_eq!(poll(&task, &mut emission), accepted(2));
    assert_eq!(quick.try_recv().unwrap(), "2");
}

#[test]
fn who_waits_is_accepted_in_order_and_nobody_comes_before() {
    let (sender, mut receiver) = full(1);
    let tasks = [(); 5].map(|()| Task::default());
    let mut emissions: Vec<_> = (1..=5)
        .map(|number| sender.emit(number.to_string()))
        .collect();
    for (task, emission) in tasks.iter().zip(&mut emissions) {
        assert_eq!(poll(task, emission), Poll::Pending);
    }
    assert!(sender.try_emit("late".to_string()).is_err());
    let mut got = Vec::new();
    for number in 1..=5 {
        got.push(receiver.try_recv().unwrap());
        assert!(sender.try_emit("late".to_string()).is_err());
        let woken: Vec<bool> = tasks.iter().map(Task::is_woken).collect();
        assert_eq!(
            woken,
            (1..=5).map(|other| other <= number).collect::<Vec<_>>()
        );
    }
    got.extend(all(&mut receiver));
    assert_eq!(got, ["0", "1", "2", "3", "4", "5"]);
    for (number, (task, emission)) in (1..).zip(tasks.iter().zip(&mut emissions)) {
        assert_eq!(poll(task, emission), accepted(number));
    }
}

#[test]
fn one_receipt_lets_in_one_and_the_rest_wait_on() {
    let (sender, mut receiver) = full(3);
    let task = Task::default();
    let mut emissions: Vec<_> = (3..8)
        .map(|number| sender.emit(number.to_string()))
        .collect();
    for emission in &mut emissions {
        assert_eq!(poll(&task, emission), Poll::Pending);
    }
    for left in (0..5).rev() {
        assert!(receiver.try_recv().is_ok());
        assert_eq!(sender.waiting_count(), left);
    }
    assert_eq!(all(&mut receiver), ["5", "6", "7"]);
}

#[test]
fn an_emission_that_is_dropped_was_never_accepted_and_lets_the_next_one_in() {
    let (sender, mut receiver) = full(1);
    let task = Task::default();
    let [mut first, mut second, mut third] =
        ["a", "b", "c"].map(|name| sender.emit(name.to_string()));
    for emission in [&mut first, &mut second, &mut third] {
        assert_eq!(poll(&task, emission), Poll::Pending);
    }
    drop(second);
    drop(first);
    assert_eq!(sender.waiting_count(), 1);
    assert!(!task.is_woken());
    assert_eq!(receiver.try_recv().unwrap(), "0");
    assert!(task.is_woken());
    assert_eq!(poll(&task, &mut third), accepted(1));
    assert_eq!(all(&mut receiver), ["c"]);
    // One that was never polled did nothing.
    drop(sender.emit("d".to_string()));
    assert_eq!(all(&mut receiver), [""; 0]);
}

#[test]
fn an_emission_that_is_forgotten_has_its_turn() {
    let (sender, mut receiver) = full(1);
    let task = Task::default();
    let mut forgotten = sender.emit("1".to_string());
    let mut other = sender.emit("2".to_string());
    assert_eq!(poll(&task, &mut forgotten), Poll::Pending);
    assert_eq!(poll(&task, &mut other), Poll::Pending);
    mem::forget(forgotten);
    assert_eq!(receiver.try_recv().unwrap(), "0");
    assert_eq!(receiver.try_recv().unwrap(), "1");
    assert_eq!(poll(&task, &mut other), accepted(2));
    let mut forgotten = sender.emit("3".to_string());
    assert_eq!(poll(&task, &mut forgotten), Poll::Pending);
    mem::forget(forgotten);
    drop(other);
    drop(sender);
    assert_eq!(receiver.iter().collect::<Vec<_>>(), ["2"]);
}

#[test]
fn what_waits_at_the_end_is_told_so_and_gets_its_value_back() {
    let (sender, mut receiver) = full(1);
    let tasks = [Task::default(), Task::default()];
    let mut emissions = ["1", "2"].map(|name| sender.emit(name.to_string()));
    for (task, emission) in tasks.iter().zip(&mut emissions) {
        assert_eq!(poll(task, emission), Poll::Pending);
    }
    sender.close();
    for (name, (task, emission)) in ["1", "2"].iter().zip(tasks.iter().zip(&mut emissions)) {
        assert!(task.is_woken());
        let ended = EmitError::Ended(name.to_string());
        assert_eq!(poll(task, emission), Poll::Ready(Err(ended)));
    }
    let late = poll(&tasks[0], &mut sender.emit("3".to_string()));
    assert_eq!(late, Poll::Ready(Err(EmitError::Ended("3".to_string()))));
    assert_eq!(receiver.iter().collect::<Vec<_>>(), ["0"]);
}

#[test]
fn of_two_tasks_the_one_that_polled_last_is_woken() {
    let (sender, mut receiver) = full(1);
    let (first, second) = (Task::default(), Task::default());
    let mut emission = sender.emit("1".to_string());
    assert_eq!(poll(&first, &mut emission), Poll::Pending);
    assert_eq!(poll(&second, &mut emission), Poll::Pending);
    assert!(receiver.try_recv().is_ok());
    assert!(second.is_woken() && !first.is_woken());
}

#[test]
fn a_receipt_that_is_dropped_wakes_nobody_later() {
    let (sender, mut receiver) = full(0);
    let task = Task::default();
    let mut receipt = receiver.recv();
    assert!(task
        .poll(|context| Pin::new(&mut receipt).poll(context))
        .is_pending());
    drop(receipt);
    let mut emission = sender.emit("0".to_string());
    assert_eq!(poll(&Task::default(), &mut emission), Poll::Pending);
    assert!(!task.is_woken());
    assert_eq!(receiver.try_recv().unwrap(), "0");
}

#[test]
fn without_places_an_emission_waits_until_all_have_it() {
    let (sender, mut one) = full(0);
    let mut two = sender.subscribe().unwrap();
    let (task, hearing) = (Task::default(), Task::default());
    assert_eq!(poll_recv(&hearing, &mut one), Poll::Pending);
    let mut emission = sender.emit("a".to_string());
    assert!(sender.try_emit("b".to_string()).is_err());
    assert_eq!(poll(&task, &mut emission), Poll::Pending);
    assert!(hearing.is_woken());
    assert_eq!(
        poll_recv(&hearing, &mut one),
        Poll::Ready(Some("a".to_string()))
    );
    let mut late = sender.subscribe().unwrap();
    assert!(!task.is_woken());
    assert_eq!(two.try_recv().unwrap(), "a");
    assert!(task.is_woken());
    assert_eq!(poll(&task, &mut emission), accepted(0));
    assert!(late.try_recv().is_err());
    drop((one, two, late));
    assert!(sender.try_emit("nobody".to_string()).is_ok());
}

#[test]
fn without_places_emissions_follow_each_other_and_may_be_taken_back() {
    let (sender, mut receiver) = full(0);
    let task = Task::default();
    let names = ["a", "b", "c", "d"];
    let [mut a, mut b, mut c, mut d] = names.map(|name| sender.emit(name.to_string()));
    for emission in [&mut a, &mut b, &mut c, &mut d] {
        assert_eq!(poll(&task, emission), Poll::Pending);
    }
    // It was on its way, and stays with its receiver.
    drop(a);
    assert_eq!(receiver.try_recv().unwrap(), "a");
    drop(c);
    assert_eq!(receiver.try_recv().unwrap(), "b");
    assert_eq!(poll(&task, &mut b), accepted(1));
    assert_eq!(receiver.try_recv().unwrap(), "d");
    assert_eq!(poll(&task, &mut d), accepted(2));
    let mut last = sender.emit("e".to_string());
    assert_eq!(poll(&task, &mut last), Poll::Pending);
    drop(receiver);
    assert!(task.is_woken());
    assert_eq!(poll(&task, &mut last), accepted(3));
}

#[test]
fn without_places_what_was_on_its_way_at_the_end_arrives() {
    let (sender, mut receiver) = full(0);
    let task = Task::default();
    let [mut a, mut b] = ["a", "b"].map(|name| sender.emit(name.to_string()));
    assert_eq!(poll(&task, &mut a), Poll::Pending);
    assert_eq!(poll(&task, &mut b), Poll::Pending);
    sender.close();
    assert_eq!(poll(&task, &mut a), accepted(0));
    assert_eq!(
        poll(&task, &mut b),
        Poll::Ready(Err(EmitError::Ended("b".to_string())))
    );
    assert_eq!(receiver.recv_blocking().unwrap(), "a");
    assert_eq!(receiver.recv_blocking(), None);
}
