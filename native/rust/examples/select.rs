//! Tasks on one thread, without an executor's crate: one emits and waits for room, another receives or gives up after a
//! time. Any executor can run these; this file brings the least that can.

use hillgauze::{Config, Receiver, Sender};
use std::error::Error;
use std::future::{poll_fn, Future};
use std::pin::{pin, Pin};
use std::sync::Arc;
use std::task::{Context, Poll, Wake, Waker};
use std::thread::{self, Thread};
use std::time::Duration;

/// Emits some values, with a pause that is too long before the last one.
async fn emit(sender: Sender<String>) {
    for number in 1..=5 {
        if number == 5 {
            sleep(Duration::from_millis(200)).await;
        }
        if sender.emit(format!("value {number}")).await.is_err() {
            return;
        }
    }
}

/// Receives until nothing comes for some time.
async fn receive(mut receiver: Receiver<String>) -> usize {
    let mut count = 0;
    loop {
        let limit = sleep(Duration::from_millis(50));
        match select(pin!(receiver.recv()), pin!(limit)).await {
            First::One(Some(value)) => {
                println!("received {value}");
                count += 1;
            }
            First::One(None) => return count,
            First::Other(()) => {
                println!("nothing came for 50 ms");
                return count;
            }
        }
    }
}

fn main() -> Result<(), Box<dyn Error>> {
    let sender = Sender::new(Config {
        extra: 2,
        ..Config::default()
    })?;
    let receiver = sender.subscribe()?;
    let emitting = thread::spawn(move || block_on(emit(sender)));
    println!("{} values came in time", block_on(receive(receiver)));
    emitting.join().expect("an emitter ends");
    Ok(())
}

/// Which of two futures was ready first.
enum First<A, B> {
    One(A),
    Other(B),
}

async fn select<A, B>(
    mut one: Pin<&mut impl Future<Output = A>>,
    mut other: Pin<&mut impl Future<Output = B>>,
) -> First<A, B> {
    poll_fn(|context| {
        if let Poll::Ready(value) = one.as_mut().poll(context) {
            return Poll::Ready(First::One(value));
        }
        other.as_mut().poll(context).map(First::Other)
    })
    .await
}

/// Is ready after some time. An executor has a better one, without a thread for each.
fn sleep(time: Duration) -> impl Future<Output = ()> {
    let sender = Sender::of_words(Config::default()).expect("there is memory");
    let receiver = sender.subscribe().expect("there is a place");
    thread::spawn(move || {
        thread::sleep(time);
        sender.close();
    });
    async move {
        let mut receiver = receiver;
        let _ended: Option<()> = receiver.recv().await;
    }
}

struct Unparking(Thread);

impl Wake for Unparking {
    fn wake(self: Arc<Self>) {
        self.0.unpark();
    }
}

fn block_on<T>(future: impl Future<Output = T>) -> T {
    let mut future = pin!(future);
    let waker = Waker::from(Arc::new(Unparking(thread::current())));
    let mut context = Context::from_waker(&waker);
    loop {
        match future.as_mut().poll(&mut context) {
            Poll::Ready(value) => return value,
            Poll::Pending => thread::park(),
        }
    }
}
