//! What the calls of senders and receivers answer, on one thread.

use hillgauze::{
    Closed, Config, EmitError, EmitTimeoutError, Emitted, Policy, Received, Receiver,
    RecvTimeoutError, Refusal, Sender, Storage, TryEmitError, TryRecvError,
};
use std::time::Duration;

pub fn with_places(extra: u64) -> Config {
    Config {
        extra,
        ..Config::default()
    }
}

pub fn dropping(policy: Policy, extra: u64) -> Config {
    Config {
        policy,
        ..with_places(extra)
    }
}

/// What is pending now.
pub fn all<T, S: Storage<T>>(receiver: &mut Receiver<T, S>) -> Vec<T> {
    receiver.try_iter().collect()
}

fn names(range: std::ops::RangeInclusive<u32>) -> Vec<String> {
    range.map(|number| format!("value {number}")).collect()
}

#[test]
fn each_receiver_gets_each_value_once() {
    let sender = Sender::new(with_places(16)).unwrap();
    let mut receivers = [(); 3].map(|()| sender.subscribe().unwrap());
    for (number, name) in (0..).zip(names(1..=5)) {
        assert_eq!(sender.try_emit(name), Ok(Emitted::Accepted(number)));
    }
    for receiver in &mut receivers {
        assert_eq!(all(receiver), names(1..=5));
        assert_eq!(receiver.try_recv(), Err(TryRecvError::Empty));
        assert_eq!((receiver.received(), receiver.dropped()), (5, 0));
    }
    drop(sender);
    assert_eq!(
        receivers.map(|mut receiver| receiver.try_recv()),
        [const { Err(TryRecvError::Ended) }; 3]
    );
}

#[test]
fn words_go_the_same_way() {
    let sender = Sender::of_words(with_places(3)).unwrap();
    let mut receiver = sender.subscribe().unwrap();
    assert_eq!(sender.try_emit(-1i32), Ok(Emitted::Accepted(0)));
    assert_eq!(sender.try_emit_all(&[-2, -3, -4]), Ok(2));
    assert_eq!(sender.try_emit(-4), Err(TryEmitError::Full(-4)));
    let mut values = vec![0];
    assert_eq!(receiver.recv_many_blocking(&mut values, 2), 2);
    assert_eq!(sender.try_emit_all(&[-4, -5, -6]), Ok(2));
    assert_eq!(receiver.recv_many_blocking(&mut values, 9), 3);
    assert_eq!(values, [0, -1, -2, -3, -4, -5]);
    sender.close();
    assert_eq!(sender.try_emit_all(&[-6]), Ok(0));
    assert_eq!(receiver.recv_many_blocking(&mut values, 9), 0);
    assert_eq!(
        receiver.close(),
        Closed {
            start: 0,
            received: 5,
            dropped: 0
        }
    );
}

#[test]
fn a_flow_by_default_takes_values_and_gives_back_what_has_no_room() {
    let sender = Sender::new(Config::default()).unwrap();
    let mut receiver = sender.subscribe().unwrap();
    for number in 0..64 {
        assert_eq!(
            sender.try_emit(number.to_string()),
            Ok(Emitted::Accepted(number))
        );
    }
    let refused = sender.try_emit("64".to_string());
    assert_eq!(refused, Err(TryEmitError::Full("64".to_string())));
    let timeout = sender.emit_timeout("64".to_string(), Duration::from_millis(2));
    assert_eq!(timeout, Err(EmitTimeoutError::Timeout("64".to_string())));
    assert_eq!(sender.waiting_count(), 0);
    assert_eq!(receiver.try_recv().unwrap(), "0");
    assert_eq!(
        sender.emit_blocking("64".to_string()),
        Ok(Emitted::Accepted(64))
    );
    assert_eq!(all(&mut receiver).len(), 64);
}

#[test]
fn the_latest_is_dropped_where_the_policy_says_so() {
    let sender = Sender::new(dropping(Policy::DropLatest, 2)).unwrap();
    let mut receiver = sender.subscribe().unwrap();
    for name in names(1..=2) {
        assert!(matches!(sender.try_emit(name), Ok(Emitted::Accepted(_))));
    }
    for name in names(3..=5) {
        assert_eq!(sender.emit_blocking(name), Ok(Emitted::Dropped));
    }
    assert_eq!(all(&mut receiver), names(1..=2));
    assert_eq!(
        sender.try_emit("value 6".to_string()),
        Ok(Emitted::Accepted(2))
    );
    assert_eq!(receiver.dropped(), 0);
}

#[test]
fn who_lags_loses_the_oldest_and_is_told_where_it_asks() {
    let sender = Sender::new(dropping(Policy::DropOldest, 2)).unwrap();
    let (mut told, mut silent) = (sender.subscribe().unwrap(), sender.subscribe().unwrap());
    for name in names(1..=5) {
        assert!(sender.try_emit(name).is_ok());
    }
    assert_eq!(told.try_recv_or_lagged(), Ok(Received::Lagged(3)));
    assert_eq!(
        told.try_recv_or_lagged(),
        Ok(Received::Value("value 4".to_string()))
    );
    for name in names(6..=7) {
        assert!(sender.try_emit(name).is_ok());
    }
    assert_eq!(told.recv_or_lagged_blocking(), Some(Received::Lagged(1)));
    // What is held back by that isn't lost for another call.
    assert_eq!(told.recv_blocking().unwrap(), "value 6");
    assert_eq!(
        told.try_recv_or_lagged(),
        Ok(Received::Value("value 7".to_string()))
    );
    assert_eq!(told.try_recv_or_lagged(), Err(TryRecvError::Empty));
    assert_eq!(all(&mut silent), names(6..=7));
    assert_eq!((silent.received(), silent.dropped()), (2, 5));
    drop(sender);
    assert_eq!(told.recv_or_lagged_blocking(), None);
    assert_eq!(
        told.close(),
        Closed {
            start: 0,
            received: 3,
            dropped: 4
        }
    );
}

#[test]
fn late_receivers_begin_with_the_replay_cache() {
    let config = Config {
        replay: 2,
        extra: 2,
        ..Config::default()
    };
    let sender = Sender::new(config).unwrap();
    for name in names(1..=3) {
        assert!(sender.try_emit(name).is_ok());
    }
    let mut late = sender.subscribe().unwrap();
    assert_eq!((late.start(), sender.replay_len()), (1, 2));
    assert_eq!(late.try_recv().unwrap(), "value 2");
    let mut again = late.resubscribe().unwrap();
    assert_eq!(all(&mut again), names(2..=3));
    sender.reset_replay();
    assert_eq!(sender.replay_len(), 0);
    assert_eq!(all(&mut late), names(3..=3));
    let mut latest = late.resubscribe().unwrap();
    assert_eq!(latest.try_recv(), Err(TryRecvError::Empty));
    assert!(sender.try_emit("value 4".to_string()).is_ok());
    for receiver in [&mut late, &mut again, &mut latest] {
        assert_eq!(all(receiver), names(4..=4));
    }
    assert_eq!(sender.receiver_count(), 3);
    drop(sender);
    let mut ended = latest.resubscribe().unwrap();
    assert_eq!(ended.recv_blocking().unwrap(), "value 4");
    assert_eq!(ended.recv_blocking(), None);
}

#[test]
fn the_last_of_the_senders_ends_the_flow_and_so_does_close() {
    let sender = Sender::new(with_places(2)).unwrap();
    let mut receiver = sender.subscribe().unwrap();
    let other = sender.clone();
    assert!(
        other.is_same_flow(&sender) && !other.is_same_flow(&Sender::new(with_places(2)).unwrap())
    );
    drop(sender);
    assert!(other.try_emit("still".to_string()).is_ok());
    other.close();
    assert!(other.is_closed());
    let ended = other.try_emit("late".to_string());
    assert_eq!(ended, Err(TryEmitError::Ended("late".to_string())));
    let ended = other.emit_blocking("late".to_string());
    assert_eq!(ended, Err(EmitError::Ended("late".to_string())));
    assert_eq!(ended.unwrap_err().into_inner(), "late");
    assert_eq!(receiver.recv_blocking().unwrap(), "still");
    assert_eq!(
        receiver.recv_timeout(Duration::ZERO),
        Err(RecvTimeoutError::Ended)
    );
    assert_eq!(receiver.try_recv(), Err(TryRecvError::Ended));
}

#[test]
fn loops_wait_and_what_is_tried_ends() {
    let sender = Sender::new(with_places(4)).unwrap();
    let mut receiver = sender.subscribe().unwrap();
    assert_eq!(receiver.try_iter().next(), None::<String>);
    for name in names(1..=4) {
        assert!(sender.try_emit(name).is_ok());
    }
    assert_eq!(
        receiver.try_iter().take(1).collect::<Vec<_>>(),
        names(1..=1)
    );
    let two: Vec<String> = receiver.iter().take(2).collect();
    assert_eq!(two, names(2..=3));
    drop(sender);
    let mut rest = Vec::new();
    for name in &mut receiver {
        rest.push(name);
    }
    assert_eq!(rest, names(4..=4));
    assert_eq!(receiver.into_iter().next(), None);
}

#[test]
fn what_is_out_of_range_is_refused() {
    let made = |config| Sender::<String>::new(config).err();
    assert_eq!(made(with_places(65_537)), Some(Refusal::TooLarge));
    assert_eq!(
        made(Config {
            replay: u64::MAX,
            ..with_places(1)
        }),
        Some(Refusal::TooLarge)
    );
    assert_eq!(
        made(dropping(Policy::DropOldest, 0)),
        Some(Refusal::PolicyNeedsBuffer)
    );
    assert_eq!(
        made(Config {
            subscribers: 0,
            ..with_places(1)
        }),
        Some(Refusal::BadLimit)
    );
    let two = Config {
        subscribers: 2,
        ..with_places(1)
    };
    let sender = Sender::<String>::new(two).unwrap();
    let (one, _two) = (sender.subscribe().unwrap(), sender.subscribe().unwrap());
    assert_eq!(one.resubscribe().err(), Some(Refusal::SubscribersFull));
    drop(one);
    assert!(sender.subscribe().is_ok());
}

#[test]
fn numbers_are_used_up_at_the_same_place_as_below() {
    let first = (1 << 62) - 1;
    let sender = Sender::new(Config {
        first,
        ..with_places(1)
    })
    .unwrap();
    let mut receiver = sender.subscribe().unwrap();
    assert_eq!(sender.try_emit(7u64), Ok(Emitted::Accepted(first)));
    assert_eq!(sender.try_emit(8), Err(TryEmitError::Spent(8)));
    assert_eq!(sender.emit_blocking(8), Err(EmitError::Spent(8)));
    assert_eq!(receiver.try_recv(), Ok(7));
}
