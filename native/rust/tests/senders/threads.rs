//! Senders and receivers on several threads: no value is lost, received twice, out of order, or dropped twice, and nobody
//! sleeps for good.

use crate::calls::{dropping, with_places};
use crate::counted::{Count, Counted};
use hillgauze::{Config, Emitted, Policy, Receiver, RecvTimeoutError, Sender, Storage, Words};
use std::future::{poll_fn, Future};
use std::pin::pin;
use std::sync::atomic::{AtomicBool, Ordering::SeqCst};
use std::sync::Arc;
use std::task::{Context, Poll, Wake, Waker};
use std::thread::{self, JoinHandle, Thread};
use std::time::{Duration, Instant};

const VALUES: u64 = 1_000_000;

/// Far more than any of these waits takes.
const LONG: Duration = Duration::from_secs(120);

/// A thread that sleeps for a task, for a long time at most.
struct Sleeping(Thread);

impl Wake for Sleeping {
    fn wake(self: Arc<Self>) {
        self.0.unpark();
    }
}

/// Runs a future on this thread. Where it is pending nothing but a wake-up has it polled again.
fn block_on<T>(future: impl Future<Output = T>) -> T {
    let mut future = pin!(future);
    let woken = Waker::from(Arc::new(Sleeping(thread::current())));
    let mut context = Context::from_waker(&woken);
    loop {
        match future.as_mut().poll(&mut context) {
            Poll::Ready(value) => return value,
            Poll::Pending => {
                let slept = Instant::now();
                thread::park_timeout(LONG);
                assert!(slept.elapsed() < LONG, "nobody woke the task");
            }
        }
    }
}

/// How one waits: by a task or by the thread.
#[derive(Clone, Copy)]
enum By {
    Task,
    Thread,
    Tries,
}

const WAYS: [By; 3] = [By::Task, By::Thread, By::Tries];

fn emit<T, S: Storage<T>>(by: By, sender: &Sender<T, S>, value: T) -> Emitted {
    match by {
        By::Task => block_on(sender.emit(value)).ok().unwrap(),
        By::Thread => sender.emit_timeout(value, LONG).ok().unwrap(),
        By::Tries => {
            let mut value = value;
            loop {
                match sender.try_emit(value) {
                    Ok(emitted) => return emitted,
                    Err(error) => value = error.into_inner(),
                }
                thread::yield_now();
            }
        }
    }
}

fn next<T, S: Storage<T>>(by: By, receiver: &mut Receiver<T, S>) -> Option<T> {
    match by {
        By::Task => block_on(receiver.recv()),
        By::Thread => match receiver.recv_timeout(LONG) {
            Ok(value) => Some(value),
            Err(RecvTimeoutError::Ended) => None,
            Err(RecvTimeoutError::Timeout) => panic!("nobody woke the thread"),
        },
        By::Tries => loop {
            match receiver.try_recv() {
                Ok(value) => return Some(value),
                Err(hillgauze::TryRecvError::Ended) => return None,
                Err(hillgauze::TryRecvError::Empty) => thread::yield_now(),
            }
        },
    }
}

/// The numbers that a receiver got, and how many were dropped for it.
type Heard = (Vec<u64>, u64);

/// All numbers that a receiver gets until the end.
fn hearing(by: By, mut receiver: Receiver<Counted>) -> JoinHandle<Heard> {
    thread::spawn(move || {
        let mut numbers = Vec::new();
        while let Some(value) = next(by, &mut receiver) {
            numbers.push(value.number);
        }
        (numbers, receiver.dropped())
    })
}

/// Two senders emit a million values between them, and three receivers get them; what each emitter's accepted values
/// were, and what each receiver got and lost.
fn two_to_three(config: Config) -> (Vec<Vec<u64>>, Vec<Heard>) {
    let count = Count::default();
    let sender = Sender::new(config).unwrap();
    let heard: Vec<_> = WAYS
        .map(|by| hearing(by, sender.subscribe().unwrap()))
        .into();
    let emitting = [(By::Task, 0), (By::Thread, 1)].map(|(by, emitter)| {
        let (sender, count) = (sender.clone(), count.clone());
        thread::spawn(move || {
            let own = (0..VALUES / 2).map(|value| value * 2 + emitter);
            own.filter(|&value| emit(by, &sender, count.value(value)) != Emitted::Dropped)
                .collect::<Vec<u64>>()
        })
    });
    drop(sender);
    let accepted = emitting.map(|emitting| emitting.join().unwrap()).into();
    let heard = heard
        .into_iter()
        .map(|heard| heard.join().unwrap())
        .collect();
    assert_eq!(count.alive(), 0, "each value was dropped once");
    (accepted, heard)
}

/// The values of one of two emitters, in the order in which they came.
fn of(emitter: u64, numbers: &[u64]) -> Vec<u64> {
    numbers
        .iter()
        .copied()
        .filter(|number| number % 2 == emitter)
        .collect()
}

#[test]
fn a_million_values_arrive_where_emissions_wait() {
    let (accepted, heard) = two_to_three(with_places(16));
    for (numbers, dropped) in &heard {
        assert_eq!((numbers.len() as u64, *dropped), (VALUES, 0));
        for (emitter, own) in (0..).zip(&accepted) {
            assert!(of(emitter, numbers) == *own, "out of order");
        }
        assert!(*numbers == heard[0].0, "two receivers saw two orders");
    }
}

#[test]
fn of_a_million_values_what_is_accepted_arrives_where_the_latest_are_dropped() {
    let (accepted, heard) = two_to_three(dropping(Policy::DropLatest, 64));
    let count: usize = accepted.iter().map(Vec::len).sum();
    for (numbers, dropped) in &heard {
        assert_eq!((numbers.len(), *dropped), (count, 0));
        for (emitter, own) in (0..).zip(&accepted) {
            assert!(of(emitter, numbers) == *own, "out of order");
        }
    }
}

#[test]
fn of_a_million_values_each_is_received_or_dropped_where_the_oldest_are() {
    let config = Config {
        replay: 3,
        ..dropping(Policy::DropOldest, 13)
    };
    let (accepted, heard) = two_to_three(config);
    assert_eq!(accepted.iter().map(Vec::len).sum::<usize>() as u64, VALUES);
    for (numbers, dropped) in &heard {
        assert_eq!(numbers.len() as u64 + dropped, VALUES);
        for emitter in 0..2 {
            let own = of(emitter, numbers);
            assert!(own.windows(2).all(|pair| pair[0] < pair[1]), "out of order");
        }
    }
}

/// Two hand a value to and fro, each asleep until the other has emitted; a wake-up that is lost ends the test. With one
/// place, and with none, where each emission waits for its receipt as well.
#[test]
fn no_wake_up_is_lost_between_two() {
    for (places, turns) in [(1, 50_000), (0, 30_000)] {
        for by in [By::Task, By::Thread] {
            let (asking, answering) = (
                Sender::new(with_places(places)).unwrap(),
                Sender::new(with_places(places)).unwrap(),
            );
            let (mut asked, mut answered) =
                (asking.subscribe().unwrap(), answering.subscribe().unwrap());
            let other = thread::spawn(move || {
                while let Some(turn) = next(by, &mut asked) {
                    emit(by, &answering, turn);
                }
            });
            for turn in 0..turns {
                emit(by, &asking, Arc::new(turn));
                assert_eq!(next(by, &mut answered).as_deref(), Some(&turn));
            }
            drop(asking);
            other.join().unwrap();
        }
    }
}

/// Emits two thousand numbers that tell whose they are.
fn emit_as(emitter: u64, sender: &Sender<u64, Words>) {
    let by = if emitter % 2 == 0 {
        By::Task
    } else {
        By::Thread
    };
    for value in 0..2_000 {
        emit(by, sender, emitter << 32 | value);
    }
}

/// Eight emitters wait for one place, or for none, most of the time, and two receivers make room; each way to wait.
#[test]
fn many_emitters_wait_for_room_and_none_is_forgotten() {
    for places in [1, 0, 3] {
        let sender = Sender::of_words(with_places(places)).unwrap();
        let heard = [By::Task, By::Thread].map(|by| {
            let mut receiver = sender.subscribe().unwrap();
            thread::spawn(move || {
                let mut numbers = Vec::new();
                while let Some(number) = next(by, &mut receiver) {
                    numbers.push(number);
                }
                numbers
            })
        });
        let emitting: Vec<_> = (0..8)
            .map(|emitter| {
                let sender = sender.clone();
                thread::spawn(move || emit_as(emitter, &sender))
            })
            .collect();
        drop(sender);
        for emitting in emitting {
            emitting.join().unwrap();
        }
        let [one, two] = heard.map(|heard| heard.join().unwrap());
        assert!(one == two, "two receivers saw two orders");
        for emitter in 0..8 {
            let own = one.iter().filter(|&number| number >> 32 == emitter);
            assert!(own
                .copied()
                .eq((0..2_000).map(|value| emitter << 32 | value)));
        }
    }
}

/// Receivers come and go, some with values pending, while emissions wait for the slowest: each gets a row without a gap.
#[test]
fn receivers_come_and_go_while_emissions_wait() {
    let count = Count::default();
    let sender = Sender::new(Config {
        replay: 2,
        ..with_places(2)
    })
    .unwrap();
    let is_over = Arc::new(AtomicBool::new(false));
    let guests: Vec<_> = (0..4)
        .map(|guest| {
            let (sender, is_over) = (sender.clone(), Arc::clone(&is_over));
            thread::spawn(move || come_and_go(guest, &sender, &is_over))
        })
        .collect();
    let emitting = [By::Task, By::Thread].map(|by| {
        let (sender, count) = (sender.clone(), count.clone());
        thread::spawn(move || {
            for number in 0..20_000 {
                emit(by, &sender, count.value(number));
            }
        })
    });
    for emitting in emitting {
        emitting.join().unwrap();
    }
    is_over.store(true, SeqCst);
    for guest in guests {
        assert!(guest.join().unwrap() > 0);
    }
    assert_eq!((sender.waiting_count(), sender.receiver_count()), (0, 0));
    drop(sender);
    assert_eq!(count.alive(), 0);
}

/// How many values a guest got, who stays for some values each time.
fn come_and_go(guest: u64, sender: &Sender<Counted>, is_over: &AtomicBool) -> u64 {
    let mut got = 0;
    for stay in 0.. {
        if is_over.load(SeqCst) {
            break;
        }
        let mut receiver = sender.subscribe().unwrap();
        for _ in 0..(stay * 7 + guest) % 5 {
            let Ok(value) = receiver.recv_timeout(Duration::from_millis(1)) else {
                break;
            };
            assert!(value.number < 20_000);
            got += 1;
        }
    }
    got
}

/// What a member emits each time it is there.
const SAID: u64 = 10;

/// Members come and go while others stay, and each emits and receives. One receives all from the first value on: what a
/// member received is one piece of that, from the number on at which it began.
#[test]
fn who_comes_and_goes_gets_one_piece_of_the_whole() {
    const MEMBERS: u64 = 6;
    for (replay, places) in [(2, 2), (0, 1), (0, 0), (1, 8)] {
        let sender = Sender::new(Config {
            replay,
            ..with_places(places)
        })
        .unwrap();
        let mut receiver = sender.subscribe().unwrap();
        let members: Vec<_> = (0..MEMBERS)
            .map(|member| {
                let sender = sender.clone();
                thread::spawn(move || pieces_of(member, &sender))
            })
            .collect();
        drop(sender);
        let whole: Vec<u64> = std::iter::from_fn(|| next(By::Thread, &mut receiver)).collect();
        let mut came = whole.clone();
        came.sort_unstable();
        assert!(came.into_iter().eq(0..MEMBERS * TIMES * SAID));
        for (start, piece) in members
            .into_iter()
            .flat_map(|pieces| pieces.join().unwrap())
        {
            assert!(whole[start..].starts_with(&piece), "a piece has a gap");
        }
    }
}

/// How often a member comes.
const TIMES: u64 = 150;

/// What a member received each time that it was there, until its own last value, and where that begins.
fn pieces_of(member: u64, sender: &Sender<u64>) -> Vec<(usize, Vec<u64>)> {
    let by = [By::Task, By::Thread][member as usize % 2];
    let be_there = |time| {
        let mut receiver = sender.subscribe().unwrap();
        let first = (member * TIMES + time) * SAID;
        let last = first + SAID - 1;
        let hearing = thread::spawn(move || {
            let mut piece = Vec::new();
            while piece.last() != Some(&last) {
                piece.extend(next(by, &mut receiver));
            }
            (receiver.start() as usize, piece)
        });
        for value in first..=last {
            emit(by, sender, value);
        }
        hearing.join().unwrap()
    };
    (0..TIMES).map(be_there).collect()
}

/// Emissions are given up at any time, by a limit of time or by a drop after a poll: what is given up comes to nobody, what
/// isn't comes once, and none is forgotten.
#[test]
fn emissions_may_be_given_up_at_any_time() {
    for (places, values) in [(1, 5_000), (0, 500), (2, 5_000)] {
        give_up_some(places, values);
    }
}

fn give_up_some(places: u64, values: u64) {
    let count = Count::default();
    let sender = Sender::new(with_places(places)).unwrap();
    let heard = hearing(By::Thread, sender.subscribe().unwrap());
    let emitting: Vec<_> = (0..4)
        .map(|emitter| {
            let (sender, count) = (sender.clone(), count.clone());
            thread::spawn(move || {
                (0..values)
                    .map(|value| emitter << 32 | value)
                    .filter(|&number| emits_or_gives_up(number, &sender, count.value(number)))
                    .collect::<Vec<u64>>()
            })
        })
        .collect();
    drop(sender);
    let mut accepted: Vec<u64> = emitting
        .into_iter()
        .flat_map(|own| own.join().unwrap())
        .collect();
    let (mut numbers, _) = heard.join().unwrap();
    accepted.sort_unstable();
    numbers.sort_unstable();
    assert!(
        accepted == numbers,
        "what was given up came, or what was accepted didn't"
    );
    assert_eq!(count.alive(), 0);
}

fn emits_or_gives_up(number: u64, sender: &Sender<Counted>, value: Counted) -> bool {
    let limit = Duration::from_micros(number % 50);
    if number % 2 == 0 {
        return sender.emit_timeout(value, limit).is_ok();
    }
    let end = Instant::now() + limit;
    let mut emission = sender.emit(value);
    let polled = block_on(poll_fn(|context| {
        match std::pin::Pin::new(&mut emission).poll(context) {
            Poll::Pending if Instant::now() >= end => Poll::Ready(None),
            Poll::Pending => {
                context.waker().wake_by_ref();
                Poll::Pending
            }
            Poll::Ready(done) => Poll::Ready(Some(done.is_ok())),
        }
    }));
    // Where it was accepted since it was polled last, it stays so.
    polled.unwrap_or_else(|| emission.withdraw().is_err())
}
