//! Streams give what their receivers do, wake their task, and end.

use futures_core::stream::{FusedStream, Stream};
use hillgauze::{Config, Sender, Sequencer, StateSeat, Tried};
use hillgauze_stream::Values;
use std::future::{poll_fn, Future};
use std::pin::{pin, Pin};
use std::sync::Arc;
use std::task::{Context, Poll, Wake, Waker};
use std::thread::{self, Thread};

struct Unparking(Thread);

impl Wake for Unparking {
    fn wake(self: Arc<Self>) {
        self.0.unpark();
    }
}

fn block_on<T>(future: impl Future<Output = T>) -> T {
    let mut future = pin!(future);
    let waker = Waker::from(Arc::new(Unparking(thread::current())));
    let mut context = Context::from_waker(&waker);
    loop {
        match future.as_mut().poll(&mut context) {
            Poll::Ready(value) => return value,
            Poll::Pending => thread::park(),
        }
    }
}

fn all<V: FusedStream + Unpin>(mut values: V) -> Vec<V::Item> {
    let mut all = Vec::new();
    block_on(async {
        while let Some(value) = next(&mut values).await {
            assert!(!values.is_terminated());
            all.push(value);
        }
    });
    assert!(values.is_terminated());
    all
}

fn next<V: Stream + Unpin>(values: &mut V) -> impl Future<Output = Option<V::Item>> + '_ {
    poll_fn(|context| Pin::new(&mut *values).poll_next(context))
}

#[test]
fn a_receiver_is_a_stream_until_the_end() {
    let sender = Sender::new(Config { extra: 2, ..Config::default() }).unwrap();
    let values = Values::from(sender.subscribe().unwrap());
    let emitting = thread::spawn(move || {
        for number in 0..1000 {
            block_on(sender.emit(number.to_string())).unwrap();
        }
    });
    let wanted: Vec<String> = (0..1000).map(|number| number.to_string()).collect();
    assert_eq!(all(values), wanted);
    emitting.join().unwrap();
}

#[test]
fn a_reader_and_a_collector_are_streams_too() {
    let mut sequencer = Sequencer::new(Config::default()).unwrap();
    let mut values = Values::from(sequencer.admit().unwrap());
    for number in 0..3u64 {
        assert_eq!(sequencer.try_emit(0, number), Ok(Tried::Accepted(number)));
    }
    assert_eq!(values.get_mut().recv_blocking(), Some(0));
    drop(sequencer);
    assert_eq!(values.get_ref().received(), 1);
    assert_eq!(all(values), [1, 2]);

    let mut seat = StateSeat::new(7u32, 2).unwrap();
    let collector = seat.take_seat(0).unwrap().collect();
    let mut values = Values::from(Values::from(collector).into_inner());
    assert_eq!(block_on(next(&mut values)), Some(7));
    seat.set(8);
    drop(seat);
    assert_eq!(all(values), [8]);
}
