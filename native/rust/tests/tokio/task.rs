//! A task that a test polls by hand.

use std::sync::atomic::{AtomicBool, Ordering::SeqCst};
use std::sync::Arc;
use std::task::{Context, Poll, Wake, Waker};

#[derive(Default)]
struct Flag(AtomicBool);

impl Wake for Flag {
    fn wake(self: Arc<Self>) {
        self.0.store(true, SeqCst);
    }
}

#[derive(Default)]
pub struct Task(Arc<Flag>);

impl Task {
    /// Polls something as this task, which is then as if it had never been woken.
    pub fn poll<T>(&self, poll: impl FnOnce(&mut Context<'_>) -> Poll<T>) -> Poll<T> {
        self.0 .0.store(false, SeqCst);
        let waker = Waker::from(Arc::clone(&self.0));
        poll(&mut Context::from_waker(&waker))
    }

    pub fn is_woken(&self) -> bool {
        self.0 .0.load(SeqCst)
    }
}
