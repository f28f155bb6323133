//! When a value is let go: once nobody is to get it any more.

use crate::calls::{dropping, with_places};
use crate::counted::Count;
use crate::task::Task;
use hillgauze::{Config, Policy, Sender};
use std::future::Future;
use std::pin::Pin;

#[test]
fn a_value_is_let_go_once_all_have_it() {
    let count = Count::default();
    let sender = Sender::new(with_places(4)).unwrap();
    let mut receivers = [(); 2].map(|()| sender.subscribe().unwrap());
    for number in 0..3 {
        assert!(sender.try_emit(count.value(number)).is_ok());
    }
    assert_eq!(count.alive(), 3);
    let [one, two] = &mut receivers;
    drop(one.try_recv());
    assert_eq!(count.alive(), 3);
    drop(two.try_recv());
    assert_eq!(count.alive(), 2);
    drop(two.try_recv());
    drop(one.try_recv());
    assert_eq!(count.alive(), 1);
    drop(receivers);
    assert_eq!(count.alive(), 0);
    assert!(sender.try_emit(count.value(3)).is_ok());
    assert_eq!(count.alive(), 0);
}

#[test]
fn the_last_receiver_gets_the_value_itself() {
    let count = Count::default();
    let sender = Sender::new(with_places(4)).unwrap();
    let (mut one, mut two) = (sender.subscribe().unwrap(), sender.subscribe().unwrap());
    assert!(sender.try_emit(count.value(0)).is_ok());
    let cloned = one.try_recv().unwrap();
    assert_eq!(count.alive(), 2);
    let own = two.try_recv().unwrap();
    assert_eq!(count.alive(), 2);
    drop((cloned, own));
    assert_eq!(count.alive(), 0);
}

#[test]
fn the_replay_cache_keeps_its_values_and_no_others() {
    let count = Count::default();
    let config = Config {
        replay: 2,
        extra: 3,
        ..Config::default()
    };
    let sender = Sender::new(config).unwrap();
    for number in 0..10 {
        assert!(sender.try_emit(count.value(number)).is_ok());
        assert_eq!(count.alive(), number.min(1) as i64 + 1);
    }
    let mut late = sender.subscribe().unwrap();
    let replayed: Vec<u64> = late.try_iter().map(|value| value.number).collect();
    assert_eq!((replayed, count.alive()), (vec![8, 9], 2));
    sender.reset_replay();
    assert_eq!(count.alive(), 0);
    assert!(sender.try_emit(count.value(10)).is_ok());
    let pending = sender.subscribe().unwrap();
    drop(late);
    sender.reset_replay();
    assert_eq!(count.alive(), 1);
    drop(pending);
    assert_eq!(count.alive(), 0);
}

#[test]
fn what_is_dropped_or_refused_is_let_go() {
    let count = Count::default();
    let sender = Sender::new(dropping(Policy::DropLatest, 1)).unwrap();
    let receiver = sender.subscribe().unwrap();
    for number in 0..5 {
        assert!(sender.try_emit(count.value(number)).is_ok());
        assert_eq!(count.alive(), 1);
    }
    sender.close();
    assert!(sender.try_emit(count.value(5)).is_err());
    assert_eq!(count.alive(), 1);
    drop(receiver);
    assert_eq!(count.alive(), 0);
}

/// One who lost a value stays counted for it, so it lies in its slot until that is filled again.
#[test]
fn what_was_lost_lies_there_until_its_slot_is_used_again() {
    let count = Count::default();
    let sender = Sender::new(dropping(Policy::DropOldest, 2)).unwrap();
    let mut receiver = sender.subscribe().unwrap();
    for number in 0..100 {
        assert!(sender.try_emit(count.value(number)).is_ok());
    }
    assert!(count.alive() <= 4);
    let rest: Vec<u64> = receiver.try_iter().map(|value| value.number).collect();
    assert_eq!(rest, [98, 99]);
    assert!(count.alive() <= 2);
    drop((sender, receiver));
    assert_eq!(count.alive(), 0);
}

#[test]
fn what_waits_is_let_go_with_its_emission_and_what_is_pending_with_the_flow() {
    let count = Count::default();
    let sender = Sender::new(with_places(1)).unwrap();
    let receiver = sender.subscribe().unwrap();
    assert!(sender.try_emit(count.value(0)).is_ok());
    let task = Task::default();
    let mut emissions: Vec<_> = (1..4)
        .map(|number| sender.emit(count.value(number)))
        .collect();
    for emission in &mut emissions {
        assert!(task
            .poll(|context| Pin::new(emission).poll(context))
            .is_pending());
    }
    assert_eq!(count.alive(), 4);
    drop(emissions.remove(1));
    assert_eq!(count.alive(), 3);
    drop(emissions);
    assert_eq!(count.alive(), 1);
    drop(sender);
    assert_eq!(count.alive(), 1);
    drop(receiver);
    assert_eq!(count.alive(), 0);
}
