//! A value whose clones and drops are counted.

use std::sync::atomic::{AtomicI64, Ordering::SeqCst};
use std::sync::Arc;

/// How many values of one kind there are: made or cloned, and not dropped.
#[derive(Clone, Default)]
pub struct Count(Arc<AtomicI64>);

impl Count {
    pub fn value(&self, number: u64) -> Counted {
        self.0.fetch_add(1, SeqCst);
        Counted {
            number,
            kept: Box::new(number),
            count: self.clone(),
        }
    }

    pub fn alive(&self) -> i64 {
        self.0.load(SeqCst)
    }
}

/// A value that owns memory, so that one that is dropped twice is seen by valgrind, too.
pub struct Counted {
    pub number: u64,
    kept: Box<u64>,
    count: Count,
}

impl Clone for Counted {
    fn clone(&self) -> Counted {
        self.count.value(self.number)
    }
}

impl Drop for Counted {
    fn drop(&mut self) {
        assert_eq!(*self.kept, self.number, "dropped before");
        *self.kept = u64::MAX;
        let before = self.count.0.fetch_sub(1, SeqCst);
        assert!(before > 0, "more values are dropped than there were");
    }
}
