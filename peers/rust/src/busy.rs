//! Threads that are busy with nothing.

use std::sync::atomic::{AtomicBool, Ordering::Relaxed};
use std::sync::Arc;
use std::thread::{self, JoinHandle};

/// As many busy threads as there are processors, up to the drop.
pub struct Busy {
    is_over: Arc<AtomicBool>,
    threads: Vec<JoinHandle<()>>,
}

impl Busy {
    pub fn on_all_processors() -> Busy {
        let processors = thread::available_parallelism().map_or(4, usize::from);
        let is_over = Arc::new(AtomicBool::new(false));
        let busy = || {
            let is_over = is_over.clone();
            thread::spawn(move || while !is_over.load(Relaxed) {})
        };
        let threads = (0..processors).map(|_| busy()).collect();
        Busy { is_over, threads }
    }
}

impl Drop for Busy {
    fn drop(&mut self) {
        self.is_over.store(true, Relaxed);
        for thread in self.threads.drain(..) {
            thread.join().unwrap();
        }
    }
}
