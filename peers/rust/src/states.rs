//! Values that threads share, each with a collector that gives a value only where it is new.

use crate::padded::Padded;
use arc_swap::ArcSwap;
use std::sync::atomic::AtomicU64;
use std::sync::atomic::Ordering::{AcqRel, Acquire, SeqCst};
use std::sync::{Arc, Mutex, RwLock};
use tokio::sync::watch;

/// A state flow.
pub trait State: Send + Sync + 'static {
    type Collector: Send + 'static;

    const NAME: &'static str;

    /// With the value 0.
    fn new() -> Self;
    fn set(&self, value: u64);
    fn read(&self) -> u64;
    fn collector(self: &Arc<Self>) -> Self::Collector;

    /// The value, where it is another than the last that was given.
    fn ask(collector: &mut Self::Collector) -> Option<u64>;
}

/// tokio's watch: a lock, and a version beside it.
pub struct Watch {
    sender: watch::Sender<u64>,
    receiver: watch::Receiver<u64>,
}

impl State for Watch {
    type Collector = watch::Receiver<u64>;

    const NAME: &'static str = "tokio-watch";

    fn new() -> Watch {
        let (sender, receiver) = watch::channel(0);
        Watch { sender, receiver }
    }

    fn set(&self, value: u64) {
        self.sender.send_replace(value);
    }

    fn read(&self) -> u64 {
        *self.receiver.borrow()
    }

    fn collector(self: &Arc<Watch>) -> watch::Receiver<u64> {
        self.receiver.clone()
    }

    fn ask(receiver: &mut watch::Receiver<u64>) -> Option<u64> {
        let is_new = receiver.has_changed().unwrap_or(false);
        is_new.then(|| *receiver.borrow_and_update())
    }
}

/// A value that is only set and read: a collector of it compares what it reads with what it gave last.
pub trait Value: Send + Sync + 'static {
    const NAME: &'static str;

    fn new() -> Self;
    fn set(&self, value: u64);
    fn read(&self) -> u64;
}

/// A value, and the last of it that was given.
pub struct Comparing<V>(Arc<V>, Option<u64>);

impl<V: Value> State for V {
    type Collector = Comparing<V>;

    const NAME: &'static str = V::NAME;

    fn new() -> V {
        V::new()
    }

    fn set(&self, value: u64) {
        Value::set(self, value);
    }

    fn read(&self) -> u64 {
        Value::read(self)
    }

    fn collector(self: &Arc<V>) -> Comparing<V> {
        Comparing(self.clone(), None)
    }

    fn ask(Comparing(value, last): &mut Comparing<V>) -> Option<u64> {
        let now = Some(Value::read(&**value));
        if now == *last {
            return None;
        }
        *last = now;
        now
    }
}

impl Value for Mutex<u64> {
    const NAME: &'static str = "mutex";

    fn new() -> Self {
        Mutex::new(0)
    }

    fn set(&self, value: u64) {
        *self.lock().unwrap() = value;
    }

    fn read(&self) -> u64 {
        *self.lock().unwrap()
    }
}

impl Value for RwLock<u64> {
    const NAME: &'static str = "rwlock";

    fn new() -> Self {
        RwLock::new(0)
    }

    fn set(&self, value: u64) {
        *self.write().unwrap() = value;
    }

    fn read(&self) -> u64 {
        *RwLock::read(self).unwrap()
    }
}

impl Value for ArcSwap<u64> {
    const NAME: &'static str = "arc-swap";

    fn new() -> Self {
        ArcSwap::from_pointee(0)
    }

    fn set(&self, value: u64) {
        self.store(Arc::new(value));
    }

    fn read(&self) -> u64 {
        **self.load()
    }
}

/// A word, exchanged and loaded sequentially consistent.
pub struct StrongWord(Padded);

impl Value for StrongWord {
    const NAME: &'static str = "limit-word-seqcst";

    fn new() -> Self {
        StrongWord(Padded(AtomicU64::new(0)))
    }

    fn set(&self, value: u64) {
        self.0 .0.swap(value, SeqCst);
    }

    fn read(&self) -> u64 {
        self.0 .0.load(SeqCst)
    }
}

/// A word, exchanged and loaded by acquire and release.
pub struct WeakWord(Padded);

impl Value for WeakWord {
    const NAME: &'static str = "limit-word-acqrel";

    fn new() -> Self {
        WeakWord(Padded(AtomicU64::new(0)))
    }

    fn set(&self, value: u64) {
        self.0 .0.swap(value, AcqRel);
    }

    fn read(&self) -> u64 {
        self.0 .0.load(Acquire)
    }
}
