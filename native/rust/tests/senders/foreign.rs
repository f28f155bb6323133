//! Code of others that panics or calls the flow: wakers, clones, drops.

use crate::calls::with_places;
use crate::task::Task;
use hillgauze::{Emitted, Sender, TryRecvError};
use std::future::Future;
use std::panic::{catch_unwind, AssertUnwindSafe};
use std::pin::Pin;
use std::sync::atomic::{AtomicBool, AtomicUsize, Ordering::SeqCst};
use std::sync::{Arc, Mutex};
use std::task::{Context, Poll, Wake, Waker};

/// A waker that runs some code of its own.
struct Calling<F: Fn() + Send + Sync>(F);

impl<F: Fn() + Send + Sync> Wake for Calling<F> {
    fn wake(self: Arc<Self>) {
        (self.0)();
    }
}

fn waker(call: impl Fn() + Send + Sync + 'static) -> Waker {
    Waker::from(Arc::new(Calling(call)))
}

fn poll_with<F: Future + Unpin>(waker: &Waker, future: &mut F) -> Poll<F::Output> {
    Pin::new(future).poll(&mut Context::from_waker(waker))
}

/// A waker of an emission panics on the receiver's thread: the value that was received isn't lost, and the others are
/// woken.
#[test]
fn a_waker_that_panics_loses_no_value() {
    let sender = Sender::new(with_places(1)).unwrap();
    let mut receiver = sender.subscribe().unwrap();
    assert!(sender.try_emit("0".to_string()).is_ok());
    let mut emission = sender.emit("1".to_string());
    let panicking = waker(|| panic!("a waker of others panics"));
    assert!(poll_with(&panicking, &mut emission).is_pending());
    let hearing = Task::default();
    let mut other = sender.subscribe().unwrap();
    assert!(hearing
        .poll(|context| other.poll_next(context))
        .is_pending());
    assert!(catch_unwind(AssertUnwindSafe(|| receiver.try_recv())).is_err());
    assert!(hearing.is_woken());
    assert_eq!(receiver.try_recv().unwrap(), "0");
    assert_eq!(receiver.try_recv().unwrap(), "1");
    assert_eq!(other.try_recv().unwrap(), "1");
    let emitted = emission_done(&mut emission);
    assert_eq!(emitted, Poll::Ready(Ok(Emitted::Accepted(1))));
}

fn emission_done<F: Future + Unpin>(emission: &mut F) -> Poll<F::Output> {
    poll_with(&waker(|| ()), emission)
}

/// A waker of a receiver panics on the emitter's thread: the emission was accepted, and the flow goes on.
#[test]
fn a_waker_of_a_receiver_that_panics_leaves_the_flow_whole() {
    let sender = Sender::new(with_places(4)).unwrap();
    let mut receivers = [(); 3].map(|()| sender.subscribe().unwrap());
    let panicking = waker(|| panic!("a waker of others panics"));
    let calm = Task::default();
    let [one, two, three] = &mut receivers;
    assert!(calm.poll(|context| one.poll_next(context)).is_pending());
    assert!(two
        .poll_next(&mut Context::from_waker(&panicking))
        .is_pending());
    assert!(calm.poll(|context| three.poll_next(context)).is_pending());
    assert!(catch_unwind(AssertUnwindSafe(|| sender.try_emit(7u64))).is_err());
    assert!(calm.is_woken());
    assert!(sender.try_emit(8).is_ok());
    for receiver in &mut receivers {
        assert_eq!((receiver.try_recv(), receiver.try_recv()), (Ok(7), Ok(8)));
    }
}

/// Wakers call the flow that wakes them, each call it has: no lock is held then.
#[test]
fn wakers_may_call_the_flow() {
    let sender = Sender::new(with_places(1)).unwrap();
    let receiver = Arc::new(Mutex::new(sender.subscribe().unwrap()));
    let called = Arc::new(AtomicUsize::new(0));
    let calling = {
        let (sender, called) = (sender.clone(), Arc::clone(&called));
        waker(move || {
            let mut late = sender.subscribe().unwrap();
            let _full = sender.try_emit(100 + called.fetch_add(1, SeqCst) as u64);
            while late.try_recv().is_ok() {}
            drop(late.resubscribe());
            assert!(sender.receiver_count() > 0 && !sender.is_closed());
            sender.reset_replay();
            drop(sender.clone());
        })
    };
    assert!(sender.try_emit(0u64).is_ok());
    let mut emission = sender.emit(1);
    assert!(poll_with(&calling, &mut emission).is_pending());
    assert_eq!(receiver.lock().unwrap().try_recv(), Ok(0));
    assert_eq!(called.load(SeqCst), 1);
    assert_eq!(receiver.lock().unwrap().try_recv(), Ok(1));
    let mut receiver = receiver.lock().unwrap();
    assert!(receiver
        .poll_next(&mut Context::from_waker(&calling))
        .is_pending());
    assert!(sender.try_emit(2).is_ok());
    assert_eq!(called.load(SeqCst), 2);
    assert_eq!(receiver.try_recv(), Ok(2));
    sender.close();
}

/// A value that panics where it is cloned, as long as it is told to.
struct Fragile(Arc<AtomicBool>, u64);

impl Clone for Fragile {
    fn clone(&self) -> Fragile {
        assert!(!self.0.load(SeqCst), "a clone of others panics");
        Fragile(Arc::clone(&self.0), self.1)
    }
}

/// tokio's `panic_in_clone`: the receiver goes on with the next value, and what waits is accepted by the last receipt.
#[test]
fn a_clone_that_panics_loses_its_value_alone() {
    let breaks = Arc::new(AtomicBool::new(true));
    let value = |number| Fragile(Arc::clone(&breaks), number);
    let sender = Sender::new(with_places(1)).unwrap();
    let (mut one, mut two) = (sender.subscribe().unwrap(), sender.subscribe().unwrap());
    assert!(sender.try_emit(value(0)).is_ok());
    let task = Task::default();
    let mut emission = sender.emit(value(1));
    assert!(task
        .poll(|context| Pin::new(&mut emission).poll(context))
        .is_pending());
    assert!(catch_unwind(AssertUnwindSafe(|| one.try_recv().is_ok())).is_err());
    assert!(!task.is_woken());
    assert_eq!(two.try_recv().map(|value| value.1), Ok(0));
    assert!(task.is_woken());
    breaks.store(false, SeqCst);
    for receiver in [&mut one, &mut two] {
        assert_eq!(receiver.try_recv().map(|value| value.1), Ok(1));
        assert!(matches!(receiver.try_recv(), Err(TryRecvError::Empty)));
    }
}

/// A value whose drop calls its own flow, as often as it has a sender.
struct Recalling(Option<Sender<Arc<Recalling>>>);

impl Drop for Recalling {
    fn drop(&mut self) {
        if let Some(sender) = self.0.take() {
            let _full = sender.try_emit(Arc::new(Recalling(None)));
            drop(sender.subscribe());
        }
    }
}

#[test]
fn a_value_may_call_its_flow_where_it_is_let_go() {
    let sender = Sender::new(with_places(1)).unwrap();
    let recalling = || Arc::new(Recalling(Some(sender.clone())));
    // Without a receiver: by the emission itself.
    assert!(sender.try_emit(recalling()).is_ok());
    // By the receiver that gives it up.
    let receiver = sender.subscribe().unwrap();
    assert!(sender.try_emit(recalling()).is_ok());
    drop(receiver);
    // By an emission that is taken back, and by the end.
    let receiver = sender.subscribe().unwrap();
    assert!(sender.try_emit(recalling()).is_ok());
    let task = Task::default();
    let mut emission = sender.emit(recalling());
    assert!(task
        .poll(|context| Pin::new(&mut emission).poll(context))
        .is_pending());
    drop(emission);
    sender.close();
    drop(receiver);
    assert_eq!(sender.receiver_count(), 0);
}
