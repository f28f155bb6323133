//! A state flow and its collectors, as tokio's `watch`.

use crate::task::Task;
use hillgauze::{Collector, StateSeat};
use std::task::Poll;

fn watched(value: u32, collectors: u32) -> (StateSeat<u32>, Vec<Collector<u32>>) {
    let mut seat = StateSeat::new(value, collectors + 1).unwrap();
    let collectors = (0..collectors)
        .map(|_| seat.take_seat(0).unwrap().collect())
        .collect();
    (seat, collectors)
}

fn watched_by_one(value: u32) -> (StateSeat<u32>, Collector<u32>) {
    let (seat, mut collectors) = watched(value, 1);
    (seat, collectors.remove(0))
}

fn poll(task: &Task, collector: &mut Collector<u32>) -> Poll<Option<u32>> {
    task.poll(|context| collector.poll_next(context))
}

#[test]
fn one_collector_gets_the_value_then_each_change_then_the_end() {
    let (mut seat, mut collector) = watched_by_one(1);
    let task = Task::default();
    assert_eq!(poll(&task, &mut collector), Poll::Ready(Some(1)));
    assert_eq!(poll(&task, &mut collector), Poll::Pending);
    seat.set(2);
    assert!(task.is_woken());
    assert_eq!(poll(&task, &mut collector), Poll::Ready(Some(2)));
    assert_eq!(poll(&task, &mut collector), Poll::Pending);
    drop(seat);
    assert!(task.is_woken());
    assert_eq!(poll(&task, &mut collector), Poll::Ready(None));
}

#[test]
fn each_collector_is_woken_and_a_late_look_finds_the_latest() {
    let (mut seat, mut collectors) = watched(1, 2);
    let [quick, slow] = &mut collectors[..] else {
        panic!("two collectors")
    };
    let (first, second) = (Task::default(), Task::default());
    assert_eq!(poll(&first, quick), Poll::Ready(Some(1)));
    assert_eq!(poll(&second, slow), Poll::Ready(Some(1)));
    assert_eq!(poll(&second, slow), Poll::Pending);
    for value in [2, 3] {
        assert_eq!(poll(&first, quick), Poll::Pending);
        seat.set(value);
        assert!(first.is_woken() && second.is_woken());
        assert_eq!(poll(&first, quick), Poll::Ready(Some(value)));
    }
    assert_eq!(poll(&second, slow), Poll::Ready(Some(3)));
    assert_eq!(seat.value(), 3);
}

#[test]
fn the_last_value_is_found_before_the_end() {
    let (mut seat, mut collector) = watched_by_one(1);
    let task = Task::default();
    assert_eq!(poll(&task, &mut collector), Poll::Ready(Some(1)));
    assert_eq!(poll(&task, &mut collector), Poll::Pending);
    seat.set(2);
    drop(seat);
    assert!(task.is_woken());
    assert_eq!(poll(&task, &mut collector), Poll::Ready(Some(2)));
    assert_eq!(poll(&task, &mut collector), Poll::Ready(None));
}

#[test]
fn where_nobody_sets_a_collector_gets_the_value_and_then_the_end() {
    let (seat, mut collector) = watched_by_one(1);
    drop(seat);
    assert_eq!(collector.recv_blocking(), Some(1));
    assert_eq!(collector.recv_blocking(), None);
}

#[test]
fn a_value_that_was_given_is_given_again_only_after_another() {
    let (mut seat, mut collector) = watched_by_one(1);
    assert_eq!(collector.try_next(), Some(1));
    seat.set(1);
    assert_eq!(collector.try_next(), None);
    seat.set(2);
    seat.set(1);
    assert_eq!(collector.try_next(), None);
    seat.set(2);
    assert_eq!(collector.try_next(), Some(2));
    seat.set(1);
    assert_eq!(collector.try_next(), Some(1));
}

#[test]
fn a_seat_that_reads_the_value_takes_nothing_from_a_collector() {
    let (mut seat, mut collector) = watched_by_one(1);
    seat.set(2);
    assert_eq!(seat.value(), 2);
    assert_eq!(collector.try_next(), Some(2));
}

#[test]
fn collectors_are_counted_as_they_come_and_go() {
    let mut seat = StateSeat::new(1u32, 2).unwrap();
    assert_eq!(seat.collectors(), 0);
    let collector = seat.take_seat(0).unwrap().collect();
    assert_eq!(seat.collectors(), 1);
    let other = collector.cancel();
    assert_eq!(seat.collectors(), 0);
    let collector = other.collect();
    assert_eq!(seat.collectors(), 1);
    drop(collector);
    assert_eq!(seat.collectors(), 0);
}

#[test]
fn a_collector_that_becomes_a_seat_can_set_again() {
    let (seat, mut collectors) = watched(1, 2);
    let mut waiting = collectors.remove(0);
    drop(seat);
    assert_eq!(waiting.recv_blocking(), Some(1));
    assert_eq!(waiting.recv_blocking(), None);
    let mut seat = collectors.remove(0).cancel();
    let task = Task::default();
    assert_eq!(poll(&task, &mut waiting), Poll::Pending);
    seat.set(2);
    assert!(task.is_woken());
    assert_eq!(poll(&task, &mut waiting), Poll::Ready(Some(2)));
}
