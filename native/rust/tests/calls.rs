//! The worked rows that are calls: numbers that run out, a lane and its reader, a state and its seats.

use hillgauze::{
    Begun, Closed, Config, Emit, Next, Policy, Reader, Refusal, Sequencer, SharedState, StateSeat,
    Taken, Ticket, Tried, Withdrawn,
};

const LIMIT: u64 = 1 << 62;

fn one_subscriber(extra: u64, emits: u32, first: u64) -> Config {
    Config {
        extra,
        subscribers: 1,
        emits,
        first,
        ..Config::default()
    }
}

/// The ticket of an emission that waits, which has this number.
fn waiting(begun: Result<Begun, Refusal>, number: u64) -> Ticket {
    match begun {
        Ok(Begun::Waiting(ticket)) if ticket.number() == number => ticket,
        other => panic!("{other:?}, and not a ticket {number}"),
    }
}

#[test]
fn numbers_spent() {
    let config = Config {
        subscribers: 2,
        ..one_subscriber(2, 2, LIMIT - 1)
    };
    let mut flow = SharedState::new(config).unwrap();
    let only = flow.subscribe().unwrap();
    assert_eq!(only.number(), LIMIT - 1);
    assert_eq!(flow.subscribe(), Err(Refusal::Spent));
    assert_eq!(flow.try_emit(0, 7u64), Ok(Tried::Accepted(LIMIT - 1)));
    assert_eq!(flow.try_emit(0, 8), Err(Refusal::Spent));
    assert_eq!(flow.next(only), Next::Value(7));
    assert_eq!(flow.next(only), Next::Nothing);

    let mut spent = SharedState::new(Config {
        first: LIMIT,
        ..config
    })
    .unwrap();
    assert_eq!(spent.try_emit(0, 7u64), Err(Refusal::Spent));
    let refused = SharedState::<u64>::new(Config {
        first: LIMIT + 1,
        ..config
    });
    assert_eq!(refused.err(), Some(Refusal::BadLimit));
}

#[test]
fn spent_before_full() {
    let mut flow = SharedState::new(one_subscriber(0, 1, LIMIT - 1)).unwrap();
    let only = flow.subscribe().unwrap();
    let ticket = waiting(flow.start_emit(0, 7u64), LIMIT - 1);
    assert_eq!(flow.start_emit(0, 8), Err(Refusal::Spent));
    assert_eq!(flow.next(only), Next::Value(7));
    assert_eq!(flow.poll_emit(ticket), Emit::Done(LIMIT - 1));
    assert_eq!(flow.poll_emit(ticket), Emit::Gone);
    assert_eq!(flow.try_emit(0, 9), Err(Refusal::Spent));
    assert!(flow.cancel(only));
    assert_eq!(flow.try_emit(0, 9), Err(Refusal::Spent));
}

#[test]
fn withdrawn_tickets_stay_spent() {
    let mut flow = SharedState::new(one_subscriber(1, 2, LIMIT - 2)).unwrap();
    flow.subscribe().unwrap();
    assert_eq!(flow.try_emit(0, 1u64), Ok(Tried::Accepted(LIMIT - 2)));
    for number in [LIMIT - 2, LIMIT - 1] {
        let ticket = waiting(flow.start_emit(0, 2), number);
        assert_eq!(flow.cancel_emit(ticket), Withdrawn::Removed);
    }
    assert_eq!(flow.start_emit(0, 4), Err(Refusal::Spent));
    assert_eq!(flow.try_emit(0, 5), Ok(Tried::Full));
}

#[test]
fn pending_and_preludes_are_counted() {
    let mut flow = SharedState::new(one_subscriber(2, 1, 0)).unwrap();
    assert_eq!(
        flow.subscribe_with(&[1u64; 17]),
        Err(Refusal::PreludeTooLong)
    );
    let only = flow.subscribe_with(&[1; 16]).unwrap();
    assert_eq!(flow.try_emit(0, 2), Ok(Tried::Accepted(0)));
    assert_eq!(flow.pending(only), 17);
    assert!(flow.cancel(only));
    assert_eq!(flow.pending(only), 0);
    assert!(!flow.cancel(only));
}

#[test]
fn blocks_on_one_thread() {
    let values: Vec<u16> = (0..130).collect();
    let mut flow = SharedState::new(one_subscriber(100, 1, LIMIT - 101)).unwrap();
    let only = flow.subscribe().unwrap();
    let mut came = vec![7];
    assert_eq!(flow.try_next_all(only, &mut came, 9), Next::Nothing);
    assert_eq!(flow.try_emit_all(0, &values), Ok(100));
    assert_eq!(flow.try_emit_all(0, &values), Ok(0));
    assert_eq!(flow.pending(only), 100);
    assert_eq!(flow.try_next_all(only, &mut came, 0), Next::Value(0));
    assert_eq!(flow.try_next_all(only, &mut came, 70), Next::Value(70));
    assert_eq!(flow.pending(only), 30);
    assert_eq!(
        flow.try_next_all(only, &mut came, usize::MAX),
        Next::Value(30)
    );
    assert_eq!(came[0], 7);
    assert_eq!(came[1..], values[..100]);
    assert_eq!(flow.try_emit_all(0, &values), Ok(1));
    assert_eq!(flow.try_emit_all(0, &values), Err(Refusal::Spent));
    assert_eq!(flow.try_emit_all(0, &[]), Ok(0));
    assert!(flow.cancel(only));
    assert_eq!(flow.try_next_all(only, &mut came, 1), Next::Closed);
    assert_eq!(flow.try_next_all(only, &mut came, 0), Next::Value(0));
    assert_eq!(came.len(), 101);
}

/// How many of 200 values are accepted by a flow, and by a lane, that have such places and one subscriber, and what
/// that one receives.
fn accepted_by_both(config: Config) -> [(u64, Vec<u64>); 2] {
    let values: Vec<u64> = (0..200).collect();
    let mut flow = SharedState::new(config).unwrap();
    let only = flow.subscribe().unwrap();
    let of_flow = flow.try_emit_all(0, &values).unwrap();
    let mut from_flow = Vec::new();
    let answered = flow.try_next_all(only, &mut from_flow, 200);
    assert_eq!(answered, received_at_once(from_flow.len()));

    let mut sequencer = Sequencer::new(config).unwrap();
    let mut reader = sequencer.admit().unwrap();
    let of_lane = sequencer.try_emit_all(0, &values).unwrap();
    drop(sequencer);
    let mut from_lane = Vec::new();
    assert_eq!(
        reader.recv_many_blocking(&mut from_lane, 200),
        from_lane.len()
    );
    assert_eq!(reader.recv_many_blocking(&mut from_lane, 200), 0);
    [(of_flow, from_flow), (of_lane, from_lane)]
}

fn received_at_once(count: usize) -> Next<u64> {
    match count {
        0 => Next::Nothing,
        count => Next::Value(count as u64),
    }
}

#[test]
fn blocks_under_each_policy() {
    let with = |policy, extra| Config {
        policy,
        ..one_subscriber(extra, 1, 0)
    };
    for extra in [1, 63, 64, 65, 128, 150, 199, 200] {
        let first: Vec<u64> = (0..extra).collect();
        let last: Vec<u64> = (200 - extra..200).collect();
        for accepted in accepted_by_both(with(Policy::Suspend, extra)) {
            assert_eq!(accepted, (extra, first.clone()));
        }
        for accepted in accepted_by_both(with(Policy::DropLatest, extra)) {
            assert_eq!(accepted, (extra, first.clone()));
        }
        for accepted in accepted_by_both(with(Policy::DropOldest, extra)) {
            assert_eq!(accepted, (200, last.clone()));
        }
    }
    for accepted in accepted_by_both(with(Policy::Suspend, 0)) {
        assert_eq!(accepted, (0, Vec::new()));
    }
}

/// The refusal of a later block isn't told: values before it were accepted.
#[test]
fn blocks_up_to_the_last_number() {
    let values = [1u64; 130];
    for left in [63, 64, 65, 128] {
        let config = one_subscriber(200, 1, LIMIT - left);
        let mut flow = SharedState::new(config).unwrap();
        assert_eq!(flow.try_emit_all(0, &values), Ok(left));
        assert_eq!(flow.try_emit_all(0, &values), Err(Refusal::Spent));
        let mut sequencer = Sequencer::new(config).unwrap();
        assert_eq!(sequencer.try_emit_all(0, &values), Ok(left));
        assert_eq!(sequencer.try_emit_all(0, &values), Err(Refusal::Spent));
        assert_eq!(sequencer.try_emit_all(0, &[]), Ok(0));
    }
}

/// What the reader says of itself: where it began, and how many values it received and lost.
fn counts<T: hillgauze::Word>(reader: &Reader<T>) -> (u64, u64, u64) {
    (reader.start(), reader.received(), reader.dropped())
}

#[test]
fn lane_suspends() {
    let mut sequencer = Sequencer::new(one_subscriber(2, 1, 0)).unwrap();
    let mut reader = sequencer.admit().unwrap();
    let tried = [7u64, 8, 9].map(|value| sequencer.try_emit(5, value).unwrap());
    assert_eq!(tried, [Tried::Accepted(0), Tried::Accepted(1), Tried::Full]);
    assert_eq!(reader.try_next(), Taken::Value(7));
    assert_eq!(sequencer.start_emit(5, 9), Ok(Begun::Accepted(2)));
    let ticket = waiting(sequencer.start_emit(5, 10), 0);
    assert_eq!(reader.try_next(), Taken::Value(8));
    assert_eq!(sequencer.scan(), 1);
    assert_eq!(sequencer.poll_emit(ticket), Emit::Done(3));
    assert_eq!(reader.try_next(), Taken::Value(9));
    assert_eq!(reader.try_next(), Taken::Value(10));
    assert_eq!(reader.try_next(), Taken::Nothing);
    assert_eq!(counts(&reader), (0, 4, 0));
}

#[test]
fn lane_drops_oldest() {
    let config = Config {
        replay: 1,
        policy: Policy::DropOldest,
        ..one_subscriber(1, 1, 0)
    };
    let mut sequencer = Sequencer::new(config).unwrap();
    let mut reader = sequencer.admit().unwrap();
    for (number, value) in (0..).zip(1..=5u64) {
        assert_eq!(sequencer.try_emit(0, value), Ok(Tried::Accepted(number)));
    }
    assert_eq!(reader.try_next(), Taken::Value(4));
    assert_eq!(reader.try_next(), Taken::Value(5));
    assert_eq!(reader.try_next(), Taken::Nothing);
    assert_eq!(counts(&reader), (0, 2, 3));
    assert_eq!(sequencer.admit().err(), Some(Refusal::SubscribersFull));
    assert_eq!(
        reader.close(),
        Closed {
            start: 0,
            received: 2,
            dropped: 3
        }
    );

    let mut reader = sequencer.admit().unwrap();
    assert_eq!(reader.start(), 4);
    assert_eq!(reader.try_next(), Taken::Value(5));
    assert_eq!(counts(&reader), (4, 1, 0));
}

#[test]
fn a_reader_takes_64_at_once() {
    let values: Vec<i32> = (-50..50).collect();
    let mut sequencer = Sequencer::new(one_subscriber(100, 1, 0)).unwrap();
    let mut reader = sequencer.admit().unwrap();
    let mut came = vec![7];
    assert_eq!(reader.try_next_all(&mut came, 9), Taken::Nothing);
    assert_eq!(reader.try_next_all(&mut came, 0), Taken::Nothing);
    assert_eq!(sequencer.try_emit_all(0, &values), Ok(100));
    assert_eq!(reader.try_next_all(&mut came, 0), Taken::Value(0));
    assert_eq!(reader.recv_many_blocking(&mut came, 0), 0);
    assert_eq!(reader.try_next_all(&mut came, 2), Taken::Value(2));
    assert_eq!(reader.try_next_all(&mut came, usize::MAX), Taken::Value(64));
    assert_eq!(counts(&reader), (0, 66, 0));
    assert_eq!(reader.try_next(), Taken::Value(16));
    assert_eq!(sequencer.try_emit_all(0, &values), Ok(67));
    assert_eq!(reader.recv_many_blocking(&mut came, 99), 99);
    assert_eq!(reader.recv_many_blocking(&mut came, usize::MAX), 1);
    let wanted = [7].iter().chain(&values[..66]).chain(&values[67..]);
    assert!(came.iter().eq(wanted.chain(&values[..67])));
    drop(sequencer);
    assert_eq!(reader.recv_many_blocking(&mut came, usize::MAX), 0);
    assert_eq!(counts(&reader), (0, 167, 0));
}

/// A block comes behind the emissions that wait, and accepts these first, also where it has no values.
#[test]
fn a_block_lets_in_what_waits() {
    let mut sequencer = Sequencer::new(one_subscriber(2, 2, 0)).unwrap();
    let mut reader = sequencer.admit().unwrap();
    let mut came = Vec::new();
    assert_eq!(sequencer.try_emit_all(0, &[1u64, 2, 3]), Ok(2));
    let first = waiting(sequencer.start_emit(0, 3), 0);
    let second = waiting(sequencer.start_emit(0, 4), 1);
    assert_eq!(sequencer.try_emit_all(0, &[5, 6]), Ok(0));
    assert_eq!(reader.recv_many_blocking(&mut came, 1), 1);
    assert_eq!(sequencer.try_emit_all(0, &[5, 6]), Ok(0));
    assert_eq!(sequencer.poll_emit(first), Emit::Done(2));
    assert_eq!(sequencer.poll_emit(second), Emit::Waiting);
    assert_eq!(reader.recv_many_blocking(&mut came, 1), 1);
    assert_eq!(sequencer.try_emit_all(0, &[]), Ok(0));
    assert_eq!(sequencer.poll_emit(second), Emit::Done(3));
    assert_eq!(reader.recv_many_blocking(&mut came, 9), 2);
    assert_eq!(sequencer.try_emit_all(0, &[5, 6]), Ok(2));
    assert_eq!(reader.recv_many_blocking(&mut came, 9), 2);
    assert_eq!(came, [1, 2, 3, 4, 5, 6]);
}

#[test]
fn seats_are_limited() {
    for (seats, refusal) in [
        (0, Some(Refusal::BadLimit)),
        (1025, Some(Refusal::BadLimit)),
        (1024, None),
    ] {
        assert_eq!(StateSeat::new(0u64, seats).err(), refusal, "{seats} seats");
    }
}

#[test]
fn seats_are_shared_out_and_given_back() {
    let mut first = StateSeat::new('a', 4).unwrap();
    let second = first.take_seat(1).unwrap();
    assert_eq!((first.spare(), second.spare()), (1, 1));
    assert_eq!(first.take_seat(1).err(), Some(Refusal::SubscribersFull));
    first.give_back(second).unwrap();
    assert_eq!(first.spare(), 3);
}

/// No proof speaks of a seat that another flow takes back, so the crate lets no such call through: whatever became of
/// the seat, and whichever of its flow's seats are left.
#[test]
fn a_seat_of_another_flow_is_not_taken_back() {
    let mut own = StateSeat::new('a', 4).unwrap();
    let mut strange = StateSeat::new('a', 4).unwrap();
    let taken = strange.take_seat(1).unwrap();
    let taken = own.give_back(taken).unwrap_err();
    let collected = own.give_back(taken.collect().cancel()).unwrap_err();
    assert_eq!((own.spare(), strange.spare(), collected.spare()), (3, 1, 1));
    own.set('b');
    assert_eq!((strange.value(), collected.value()), ('a', 'a'));
    drop(strange);
    let mut left = own.give_back(collected).unwrap_err();
    let other = own.take_seat(0).unwrap();
    let other = left.give_back(other).unwrap_err();
    assert_eq!((left.spare(), left.value()), (1, 'a'));
    own.give_back(other).unwrap();
    assert_eq!((own.spare(), own.value()), (3, 'b'));
}

#[test]
fn a_seat_alone_reads_what_it_sets() {
    let mut seat = StateSeat::new(0u32, 1).unwrap();
    seat.set(5);
    assert_eq!(seat.value(), 5);
    let mut collector = seat.collect();
    assert_eq!(collector.try_next(), Some(5));
    assert_eq!(collector.cancel().value(), 5);
}

/// A subscription and a ticket are of the flow that gave them: another one, which gave the same numbers, takes neither.
#[test]
fn another_flow_takes_no_subscription_and_no_ticket() {
    let mut flows = [(); 2].map(|()| SharedState::new(one_subscriber(1, 1, 5)).unwrap());
    let [own, other] = &mut flows;
    let (of_own, of_other) = (own.subscribe().unwrap(), other.subscribe().unwrap());
    assert_eq!(of_own.number(), of_other.number());
    assert_ne!(of_own, of_other);
    for flow in [&mut *own, &mut *other] {
        assert_eq!(flow.try_emit(0, 7u64), Ok(Tried::Accepted(5)));
    }
    let (ticket, foreign) = (
        waiting(own.start_emit(0, 8), 5),
        waiting(other.start_emit(0, 9), 5),
    );
    assert_eq!(own.next(of_other), Next::Closed);
    assert_eq!(own.try_next_all(of_other, &mut Vec::new(), 9), Next::Closed);
    assert_eq!((own.pending(of_other), own.cancel(of_other)), (0, false));
    assert_eq!(own.poll_emit(foreign), Emit::Gone);
    assert_eq!(own.cancel_emit(foreign), Withdrawn::Gone);
    assert_eq!((own.pending(of_own), own.subscription_count()), (1, 1));
    assert_eq!(own.poll_emit(ticket), Emit::Waiting);
    assert_eq!(own.cancel_emit(ticket), Withdrawn::Removed);

    let mut lanes = [(); 2].map(|()| Sequencer::<u64>::new(one_subscriber(0, 1, 0)).unwrap());
    let readers = lanes.each_mut().map(|lane| lane.admit().unwrap());
    let [ticket, foreign] = lanes
        .each_mut()
        .map(|lane| waiting(lane.start_emit(0, 7), 0));
    assert_eq!(lanes[0].poll_emit(foreign), Emit::Gone);
    assert_eq!(lanes[0].cancel_emit(foreign), Withdrawn::Gone);
    drop(readers);
    assert_eq!(lanes[0].poll_emit(ticket), Emit::Done(0));
}

/// What NATIVE.md and the crate's page show, with a flow that nothing is asked of.
#[test]
fn a_flow_by_default_has_room_for_who_tries() {
    let mut sequencer = Sequencer::new(Config::default()).unwrap();
    let mut reader = sequencer.admit().unwrap();
    for value in 0..64u64 {
        assert_eq!(sequencer.try_emit(0, value), Ok(Tried::Accepted(value)));
    }
    assert_eq!(sequencer.try_emit(0, 64), Ok(Tried::Full));
    assert_eq!(reader.try_next(), Taken::Value(0));
    assert_eq!(sequencer.try_emit(0, 64), Ok(Tried::Accepted(64)));
}
