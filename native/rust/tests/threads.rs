//! Flows between threads: nothing is lost, received twice or out of order, and nobody sleeps for good.

use hillgauze::{
    Closed, Collector, Config, Policy, Reader, RecvTimeoutError, Sequencer, StateSeat, Taken,
    Tried, Word,
};
use std::future::Future;
use std::panic::{catch_unwind, AssertUnwindSafe};
use std::pin::pin;
use std::sync::atomic::{AtomicBool, Ordering::SeqCst};
use std::sync::{Arc, Mutex};
use std::task::{Context, Poll, Wake, Waker};
use std::thread::{self, Thread};
use std::time::Duration;

const VALUES: u64 = 1_000_000;

/// Far more than any of these waits takes.
const LONG: Duration = Duration::from_secs(60);

fn lane(policy: Policy, extra: u64) -> Sequencer<u64> {
    Sequencer::new(Config {
        extra,
        policy,
        ..Config::default()
    })
    .unwrap()
}

/// Emits a value, and answers its number; waits for room, and answers nothing where the value was dropped.
fn emit(sequencer: &mut Sequencer<u64>, value: u64) -> Option<u64> {
    loop {
        match sequencer.try_emit(0, value).unwrap() {
            Tried::Accepted(number) => return Some(number),
            Tried::Dropped => return None,
            Tried::Full => thread::yield_now(),
        }
    }
}

/// All that the reader receives until the end, by sleeping.
fn slept(mut reader: Reader<u64>) -> (Vec<u64>, Closed) {
    let mut values = Vec::new();
    while let Some(value) = reader.recv_blocking() {
        values.push(value);
    }
    (values, reader.close())
}

/// All that the reader receives until the last value, by asking without end.
fn asked(mut reader: Reader<u64>, last: u64) -> (Vec<u64>, Closed) {
    let mut values = Vec::new();
    while values.last() != Some(&last) {
        match reader.try_next() {
            Taken::Value(value) => values.push(value),
            Taken::Nothing => thread::yield_now(),
            Taken::Overtaken => {}
        }
    }
    (values, reader.close())
}

/// What a sequencer on this thread accepted of a million values and one last value, and what two readers on threads of
/// their own received.
fn three_threads(policy: Policy) -> (Vec<u64>, [(Vec<u64>, Closed); 2]) {
    let mut sequencer = lane(policy, 64);
    let sleeping = sequencer.admit().unwrap();
    let asking = sequencer.admit().unwrap();
    let sleeping = thread::spawn(|| slept(sleeping));
    let asking = thread::spawn(|| asked(asking, VALUES));
    let mut accepted: Vec<u64> = (0..VALUES)
        .filter(|&value| emit(&mut sequencer, value).is_some())
        .collect();
    while emit(&mut sequencer, VALUES).is_none() {
        thread::yield_now();
    }
    accepted.push(VALUES);
    drop(sequencer);
    (accepted, [sleeping.join().unwrap(), asking.join().unwrap()])
}

#[test]
fn nothing_is_lost_where_emissions_wait() {
    let (accepted, received) = three_threads(Policy::Suspend);
    assert_eq!(accepted.len() as u64, VALUES + 1);
    for (values, closed) in received {
        assert!(values == accepted, "a reader received something else");
        assert_eq!(
            closed,
            Closed {
                start: 0,
                received: VALUES + 1,
                dropped: 0
            }
        );
    }
}

#[test]
fn what_is_accepted_is_received_where_the_latest_are_dropped() {
    let (accepted, received) = three_threads(Policy::DropLatest);
    for (values, closed) in received {
        assert!(values == accepted, "a reader received something else");
        assert_eq!(closed.received, accepted.len() as u64);
        assert_eq!(closed.dropped, 0);
    }
}

#[test]
fn each_value_is_received_or_dropped_where_the_oldest_are() {
    let (accepted, received) = three_threads(Policy::DropOldest);
    assert_eq!(accepted.len() as u64, VALUES + 1);
    for (values, closed) in received {
        assert!(
            values.windows(2).all(|pair| pair[0] < pair[1]),
            "a reader received out of order"
        );
        assert_eq!(values.last(), Some(&VALUES));
        assert_eq!(closed.received, values.len() as u64);
        assert_eq!(closed.received + closed.dropped, VALUES + 1);
    }
}

/// Sizes from 1 to `most`, in no order.
fn sizes(most: u64, seed: u64) -> impl FnMut() -> usize {
    let mut state = seed;
    move || {
        // Marsaglia's xorshift.
        state ^= state << 13;
        state ^= state >> 7;
        state ^= state << 17;
        (state % most) as usize + 1
    }
}

/// Emits a million values and one last value, in blocks of many sizes; answers which were accepted. Under `DropLatest`
/// the value that ends a block is dropped, but for the last one.
fn emit_blocks(sequencer: &mut Sequencer<u64>, policy: Policy) -> Vec<u64> {
    let values: Vec<u64> = (0..=VALUES).collect();
    let mut size = sizes(200, 7);
    let mut accepted = Vec::new();
    let mut done = 0;
    while done < values.len() {
        let end = values.len().min(done + size());
        let block = &values[done..end];
        let count = sequencer.try_emit_all(0, block).unwrap() as usize;
        accepted.extend_from_slice(&block[..count]);
        done += count;
        if count == block.len() {
            continue;
        }
        if policy == Policy::DropLatest && done < values.len() - 1 {
            done += 1;
        }
        thread::yield_now();
    }
    accepted
}

/// All that the reader receives until the end, in blocks of many sizes, by sleeping.
fn slept_for_blocks(mut reader: Reader<u64>) -> (Vec<u64>, Closed) {
    let mut size = sizes(200, 8);
    let mut values = Vec::new();
    loop {
        let (before, most) = (values.len(), size());
        let count = reader.recv_many_blocking(&mut values, most);
        assert!(count <= most && values.len() == before + count);
        if count == 0 {
            return (values, reader.close());
        }
    }
}

/// All that the reader receives until the last value, in blocks of many sizes and each tenth time one alone, by asking
/// without end.
fn asked_for_blocks(mut reader: Reader<u64>, last: u64) -> (Vec<u64>, Closed) {
    let mut size = sizes(80, 9);
    let mut values = Vec::new();
    while values.last() != Some(&last) {
        let (before, most) = (values.len(), size());
        if most % 10 == 0 {
            values.extend(reader.try_iter().take(1));
            continue;
        }
        match reader.try_next_all(&mut values, most) {
            Taken::Value(count) => {
                assert!((1..=most.min(64) as u64).contains(&count));
                assert_eq!(values.len(), before + count as usize);
            }
            nothing => {
                assert_eq!(values.len(), before);
                if nothing == Taken::Nothing {
                    thread::yield_now();
                }
            }
        }
    }
    (values, reader.close())
}

/// What a sequencer on this thread accepted by the block, and what two readers on threads of their own received so.
fn three_threads_by_the_block(policy: Policy) -> (Vec<u64>, [(Vec<u64>, Closed); 2]) {
    let mut sequencer = lane(policy, 100);
    let sleeping = sequencer.admit().unwrap();
    let asking = sequencer.admit().unwrap();
    let sleeping = thread::spawn(|| slept_for_blocks(sleeping));
    let asking = thread::spawn(|| asked_for_blocks(asking, VALUES));
    let accepted = emit_blocks(&mut sequencer, policy);
    drop(sequencer);
    (accepted, [sleeping.join().unwrap(), asking.join().unwrap()])
}

#[test]
fn no_value_of_a_block_is_lost_where_emissions_wait() {
    let (accepted, received) = three_threads_by_the_block(Policy::Suspend);
    assert!(accepted.iter().copied().eq(0..=VALUES));
    for (values, closed) in received {
        assert!(values == accepted, "a reader received something else");
        let wanted = Closed {
            start: 0,
            received: VALUES + 1,
            dropped: 0,
        };
        assert_eq!(closed, wanted);
    }
}

#[test]
fn what_is_accepted_of_a_block_is_received_where_the_latest_are_dropped() {
    let (accepted, received) = three_threads_by_the_block(Policy::DropLatest);
    assert_eq!(accepted.last(), Some(&VALUES));
    for (values, closed) in received {
        assert!(values == accepted, "a reader received something else");
        assert_eq!(closed.received, accepted.len() as u64);
        assert_eq!(closed.dropped, 0);
    }
}

#[test]
fn each_value_of_a_block_is_received_or_dropped_where_the_oldest_are() {
    let (accepted, received) = three_threads_by_the_block(Policy::DropOldest);
    assert!(accepted.iter().copied().eq(0..=VALUES));
    for (values, closed) in received {
        assert!(
            values.windows(2).all(|pair| pair[0] < pair[1]),
            "a reader received out of order"
        );
        assert_eq!(values.last(), Some(&VALUES));
        assert_eq!(closed.received, values.len() as u64);
        assert_eq!(closed.received + closed.dropped, VALUES + 1);
    }
}

/// Emits a thousand values that tell whose they are.
fn emit_as(emitter: u64, sequencer: &Mutex<Sequencer<u64>>) {
    for value in 0..1000 {
        emit(&mut sequencer.lock().unwrap(), emitter * 1000 + value);
    }
}

fn assert_all_rising(values: &[u64]) {
    assert_eq!(values.len(), 3000);
    for emitter in 0..3 {
        let own = values.iter().filter(|&value| value / 1000 == emitter);
        assert!(own.is_sorted(), "emitter {emitter}");
    }
}

/// Three emitters share a sequencer under a lock. Four readers receive all that they emit, each emitter's values rising.
#[test]
fn lane_three_emitters() {
    let mut sequencer = lane(Policy::Suspend, 8);
    let readers = [(); 4].map(|()| sequencer.admit().unwrap());
    let readers = readers.map(|reader| thread::spawn(|| slept(reader)));
    let sequencer = Mutex::new(sequencer);
    thread::scope(|scope| {
        let shared = &sequencer;
        (0..3).for_each(|emitter| drop(scope.spawn(move || emit_as(emitter, shared))));
    });
    drop(sequencer);
    for reader in readers {
        assert_all_rising(&reader.join().unwrap().0);
    }
}

#[test]
fn of_two_writers_one_wins() {
    for _ in 0..1000 {
        let mut one = StateSeat::new(0u64, 2).unwrap();
        let mut two = one.take_seat(0).unwrap();
        let two = thread::spawn(move || (two.compare_and_set(0, 2), two));
        let first = one.compare_and_set(0, 1);
        let (second, two) = two.join().unwrap();
        assert_ne!(first, second);
        let winner = if first { 1 } else { 2 };
        assert_eq!((one.value(), two.value()), (winner, winner));
    }
}

/// Two threads count one state up, and a third collects it: what it gets rises, and ends with the last value.
#[test]
fn two_threads_count_one_state_up() {
    let mut one = StateSeat::new(0u64, 3).unwrap();
    let mut two = one.take_seat(0).unwrap();
    let mut collector = one.take_seat(0).unwrap().collect();
    let collecting = thread::spawn(move || {
        let mut values = Vec::new();
        while let Some(value) = collector.recv_blocking() {
            values.push(value);
        }
        values
    });
    let counting = thread::spawn(move || count_up(&mut two));
    count_up(&mut one);
    counting.join().unwrap();
    assert_eq!(one.value(), 200_000);
    drop(one);
    let values = collecting.join().unwrap();
    assert!(
        values.windows(2).all(|pair| pair[0] < pair[1]),
        "a value came again"
    );
    assert_eq!(values.last(), Some(&200_000));
}

fn count_up(seat: &mut StateSeat<u64>) {
    (0..100_000).for_each(|_| add_one(seat));
}

fn add_one(seat: &mut StateSeat<u64>) {
    loop {
        let value = seat.value();
        if seat.compare_and_set(value, value + 1) {
            return;
        }
    }
}

#[test]
fn a_wait_with_a_limit_ends() {
    let mut sequencer = lane(Policy::Suspend, 1);
    let mut reader = sequencer.admit().unwrap();
    assert_eq!(
        reader.recv_timeout(Duration::ZERO),
        Err(RecvTimeoutError::Timeout)
    );
    assert_eq!(
        reader.recv_timeout(Duration::from_millis(20)),
        Err(RecvTimeoutError::Timeout)
    );
    emit(&mut sequencer, 7);
    assert_eq!(reader.recv_timeout(Duration::MAX), Ok(7));
    drop(sequencer);
    assert_eq!(
        reader.recv_timeout(Duration::MAX),
        Err(RecvTimeoutError::Ended)
    );
}

/// A thread that sleeps for a task, for a long time at most.
struct Sleeping(Thread);

impl Wake for Sleeping {
    fn wake(self: Arc<Self>) {
        self.0.unpark();
    }
}

/// Runs a future on this thread. Where it is pending nothing but a wake-up has it polled again.
fn block_on<T>(future: impl Future<Output = T>) -> T {
    let mut future = pin!(future);
    let waker = Waker::from(Arc::new(Sleeping(thread::current())));
    let mut context = Context::from_waker(&waker);
    loop {
        match future.as_mut().poll(&mut context) {
            Poll::Ready(value) => return value,
            Poll::Pending => {
                let slept = std::time::Instant::now();
                thread::park_timeout(LONG);
                assert!(slept.elapsed() < LONG, "nobody woke the task");
            }
        }
    }
}

fn next<T: Word>(reader: &mut Reader<T>) -> Option<T> {
    block_on(reader.recv())
}

/// Sends back each turn that comes.
fn answer(mut turns: Reader<u64>, mut answers: Sequencer<u64>) {
    while let Some(turn) = next(&mut turns) {
        emit(&mut answers, turn);
    }
}

/// Two threads hand a number to and fro, and each sleeps until the other has emitted. A wake-up that is lost ends the
/// test.
#[test]
fn no_wake_up_is_lost_between_two() {
    let (mut turns, mut answers) = (lane(Policy::Suspend, 1), lane(Policy::Suspend, 1));
    let (asked, mut answered) = (turns.admit().unwrap(), answers.admit().unwrap());
    let answering = thread::spawn(|| answer(asked, answers));
    for turn in 0..50_000 {
        emit(&mut turns, turn);
        assert_eq!(next(&mut answered), Some(turn));
    }
    drop(turns);
    answering.join().unwrap();
}

/// The next values, as many as come, up to three.
fn next_few<T: Word>(reader: &mut Reader<T>) -> Vec<T> {
    let mut values = Vec::new();
    let count = block_on(reader.recv_many(&mut values, 3));
    assert_eq!(values.len(), count);
    values
}

/// Emits a block, as far as there is room at first, and then the rest.
fn emit_block(sequencer: &mut Sequencer<u64>, values: &[u64]) {
    let mut rest = values;
    while !rest.is_empty() {
        let accepted = sequencer.try_emit_all(0, rest).unwrap();
        rest = &rest[accepted as usize..];
        if accepted == 0 {
            thread::yield_now();
        }
    }
}

/// Two threads hand blocks to and fro, as above. Each sleeps until the other has emitted.
#[test]
fn no_wake_up_is_lost_between_two_by_the_block() {
    let (mut turns, mut answers) = (lane(Policy::Suspend, 3), lane(Policy::Suspend, 3));
    let (mut asked, mut answered) = (turns.admit().unwrap(), answers.admit().unwrap());
    let answering = thread::spawn(move || loop {
        let came = next_few(&mut asked);
        if came.is_empty() {
            return;
        }
        emit_block(&mut answers, &came);
    });
    for turn in 0..30_000 {
        let block = [turn, turn + 1, turn + 2];
        let block = &block[..turn as usize % 3 + 1];
        emit_block(&mut turns, block);
        let mut came = Vec::new();
        while came.len() < block.len() {
            came.extend(next_few(&mut answered));
        }
        assert_eq!(came, block);
    }
    drop(turns);
    answering.join().unwrap();
    assert!(next_few(&mut answered).is_empty());
}

/// A thread that sleeps in `recv_many_blocking` is woken by a block, and at the end.
#[test]
fn a_block_wakes_a_thread() {
    let mut sequencer = lane(Policy::Suspend, 8);
    let mut reader = sequencer.admit().unwrap();
    let mut heard = StateSeat::new(0u64, 2).unwrap();
    let mut collector = heard.take_seat(0).unwrap().collect();
    let listening = thread::spawn(move || {
        let mut values = Vec::new();
        while reader.recv_many_blocking(&mut values, 8) > 0 {
            heard.set(values.len() as u64);
        }
        values
    });
    for turn in 1..=2000u64 {
        emit_block(&mut sequencer, &[turn; 2]);
        while collector.recv_timeout(LONG).expect("a reader slept on") < 2 * turn {}
    }
    drop(sequencer);
    assert_eq!(listening.join().unwrap().len(), 4000);
}

/// A task that gave up its wait isn't woken for it, and has received nothing.
#[test]
fn a_wait_that_is_given_up_wakes_nobody_and_loses_nothing() {
    let mut sequencer = lane(Policy::Suspend, 4);
    let (mut one, mut many) = (sequencer.admit().unwrap(), sequencer.admit().unwrap());
    let mut seat = StateSeat::new(0u64, 2).unwrap();
    let mut collector = seat.take_seat(0).unwrap().collect();
    assert_eq!(block_on(collector.recv()), Some(0));
    let noting = Arc::new(Noting(AtomicBool::new(false)));
    let waker = Waker::from(Arc::clone(&noting));
    let mut context = Context::from_waker(&waker);
    let mut came = Vec::new();
    assert!(pin!(one.recv()).poll(&mut context).is_pending());
    assert!(pin!(many.recv_many(&mut came, 3))
        .poll(&mut context)
        .is_pending());
    assert!(pin!(collector.recv()).poll(&mut context).is_pending());
    assert_eq!(emit(&mut sequencer, 7), Some(0));
    seat.set(8);
    assert!(!noting.0.load(SeqCst));
    assert_eq!(block_on(one.recv()), Some(7));
    assert_eq!(block_on(many.recv_many(&mut came, 0)), 0);
    assert_eq!(block_on(many.recv_many(&mut came, 3)), 1);
    assert_eq!(came, [7]);
    assert_eq!(block_on(collector.recv()), Some(8));
    drop((sequencer, seat));
    assert_eq!(block_on(one.recv()), None);
    assert_eq!(block_on(many.recv_many(&mut came, 3)), 0);
    assert_eq!(block_on(collector.recv()), None);
}

/// A value of whose words some can't be made.
#[derive(Clone, Copy, PartialEq, Eq, Debug)]
struct Below64(u64);

impl Word for Below64 {
    fn to_word(self) -> u64 {
        assert!(self.0 < 64, "a word of others panics");
        self.0
    }

    fn from_word(word: u64) -> Below64 {
        Below64(word)
    }
}

/// Notes that it was woken.
struct Noting(AtomicBool);

impl Wake for Noting {
    fn wake(self: Arc<Self>) {
        self.0.store(true, SeqCst);
    }
}

/// Where a block is emitted and the words of the next one can't be made, its receivers are woken all the same.
#[test]
fn a_panic_between_two_blocks_keeps_nobody_asleep() {
    let mut sequencer = Sequencer::new(Config {
        extra: 100,
        ..Config::default()
    })
    .unwrap();
    let mut reader = sequencer.admit().unwrap();
    let noting = Arc::new(Noting(AtomicBool::new(false)));
    let waker = Waker::from(Arc::clone(&noting));
    let mut context = Context::from_waker(&waker);
    let mut came = Vec::new();
    assert!(reader
        .poll_recv_many(&mut context, &mut came, 100)
        .is_pending());
    let values: Vec<Below64> = (0..65).map(Below64).collect();
    let emitting = AssertUnwindSafe(|| sequencer.try_emit_all(0, &values));
    assert!(catch_unwind(emitting).is_err());
    assert!(noting.0.load(SeqCst));
    assert_eq!(
        reader.poll_recv_many(&mut context, &mut came, 100),
        Poll::Ready(64)
    );
    assert_eq!(came, values[..64]);
}

/// Counts in a state each turn that it hears.
fn count_turns(mut turns: Reader<u64>, mut heard: StateSeat<u64>) {
    while let Ok(_turn) = turns.recv_timeout(LONG) {
        add_one(&mut heard);
    }
}

/// Waits until a state has reached a number.
fn wait_for(count: u64, seat: &StateSeat<u64>, collector: &mut Collector<u64>) {
    let mut found = seat.value();
    while found < count {
        found = collector.recv_timeout(LONG).expect("a listener slept on");
    }
}

/// The same by threads that spin before they sleep: three hear each turn of a lane, and count that in a state.
#[test]
fn no_wake_up_is_lost_among_many() {
    let mut turns = lane(Policy::Suspend, 1);
    let mut heard = StateSeat::new(0u64, 5).unwrap();
    let mut collector = heard.take_seat(0).unwrap().collect();
    let listening = [(); 3].map(|()| {
        let (reader, seat) = (turns.admit().unwrap(), heard.take_seat(0).unwrap());
        thread::spawn(|| count_turns(reader, seat))
    });
    for turn in 1..=20_000 {
        emit(&mut turns, turn);
        wait_for(3 * turn, &heard, &mut collector);
    }
    drop(turns);
    for listener in listening {
        listener.join().unwrap();
    }
}
