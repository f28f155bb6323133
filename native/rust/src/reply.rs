//! What the library answers, and what that says in the words of this crate.

use crate::answers::{Begun, Emit, FlowId, Next, Taken, Ticket, Tried, Withdrawn};
use crate::refusal::Refusal;
use crate::word::Word;

const DONE: u32 = 1;
const ACCEPTED: u32 = 2;
const DROPPED: u32 = 3;
const FULL: u32 = 4;
const WAITING: u32 = 5;
const REMOVED: u32 = 6;
const LEFT: u32 = 7;
const GONE: u32 = 8;
const VALUE: u32 = 9;
const NOTHING: u32 = 10;
const OVERTAKEN: u32 = 11;
const CLOSED: u32 = 12;
const COUNT: u32 = 13;
const UNEQUAL: u32 = 14;

/// What every call of the library answers.
#[repr(C)]
#[derive(Clone, Copy, Debug)]
pub(crate) struct Reply {
    refusal: u32,
    kind: u32,
    word: u64,
}

// Both are functions apart that are handed numbers, since a text that shows the reply needs it in memory: each call would
// write it there, and the next exchange of a cursor would wait for that.
#[cold]
#[inline(never)]
fn refused_for_no_reason(refusal: u32) -> ! {
    panic!("the library refused a call that can't be: by {refusal}")
}

#[cold]
#[inline(never)]
fn unforeseen(kind: u32, word: u64) -> ! {
    panic!("the library answered what its header doesn't say: {kind} with {word}")
}

impl Reply {
    /// The reply, where the call wasn't refused.
    pub(crate) fn granted(self) -> Result<Reply, Refusal> {
        if self.refusal == 0 {
            return Ok(self);
        }
        Err(Refusal::numbered(self.refusal))
    }

    // The kind of the reply of a call that can't be refused on a handle with an object of its kind.
    #[inline]
    fn certain(self) -> u32 {
        if self.refusal != 0 {
            refused_for_no_reason(self.refusal);
        }
        self.kind
    }

    // An answer that the header doesn't give the call.
    #[inline]
    fn unforeseen(self) -> ! {
        unforeseen(self.kind, self.word)
    }

    pub(crate) fn done(self) {
        match self.certain() {
            DONE => {}
            _ => self.unforeseen(),
        }
    }

    /// The word of what is done: the number of what was made.
    pub(crate) fn made(self) -> u64 {
        self.done();
        self.word
    }

    /// Whether a subscription was live when it was cancelled.
    pub(crate) fn was_live(self) -> bool {
        match self.certain() {
            DONE => true,
            CLOSED => false,
            _ => self.unforeseen(),
        }
    }

    /// Whether a value was the one that was expected.
    pub(crate) fn was_equal(self) -> bool {
        match self.certain() {
            DONE => true,
            UNEQUAL => false,
            _ => self.unforeseen(),
        }
    }

    pub(crate) fn count(self) -> u64 {
        match self.certain() {
            COUNT => self.word,
            _ => self.unforeseen(),
        }
    }

    /// A count that the limits of the flow keep small.
    pub(crate) fn small_count(self) -> u32 {
        u32::try_from(self.count()).unwrap_or_else(|_| self.unforeseen())
    }

    pub(crate) fn tried(self) -> Tried {
        match self.certain() {
            ACCEPTED => Tried::Accepted(self.word),
            DROPPED => Tried::Dropped,
            FULL => Tried::Full,
            _ => self.unforeseen(),
        }
    }

    pub(crate) fn begun(self, flow: FlowId) -> Begun {
        match self.certain() {
            ACCEPTED => Begun::Accepted(self.word),
            DROPPED => Begun::Dropped,
            WAITING => Begun::Waiting(Ticket::new(flow, self.word)),
            _ => self.unforeseen(),
        }
    }

    pub(crate) fn emit(self) -> Emit {
        match self.certain() {
            DONE => Emit::Done(self.word),
            WAITING => Emit::Waiting,
            GONE => Emit::Gone,
            _ => self.unforeseen(),
        }
    }

    pub(crate) fn withdrawn(self) -> Withdrawn {
        match self.certain() {
            REMOVED => Withdrawn::Removed,
            LEFT => Withdrawn::Left(self.word),
            GONE => Withdrawn::Gone,
            _ => self.unforeseen(),
        }
    }

    /// A value, where there is one.
    pub(crate) fn value<T: Word>(self) -> Option<T> {
        match self.certain() {
            VALUE => Some(T::from_word(self.word)),
            NOTHING => None,
            _ => self.unforeseen(),
        }
    }

    pub(crate) fn next<T: Word>(self) -> Next<T> {
        match self.certain() {
            VALUE => Next::Value(T::from_word(self.word)),
            NOTHING => Next::Nothing,
            CLOSED => Next::Closed,
            _ => self.unforeseen(),
        }
    }

    /// How many values a subscription received at once.
    pub(crate) fn received(self) -> Next<u64> {
        match self.certain() {
            COUNT => Next::Value(self.word),
            NOTHING => Next::Nothing,
            CLOSED => Next::Closed,
            _ => self.unforeseen(),
        }
    }

    /// How many values a reader took at once.
    pub(crate) fn taken_at_once(self) -> Taken<u64> {
        match self.certain() {
            COUNT => Taken::Value(self.word),
            NOTHING => Taken::Nothing,
            OVERTAKEN => Taken::Overtaken,
            _ => self.unforeseen(),
        }
    }

    pub(crate) fn taken<T: Word>(self) -> Taken<T> {
        match self.certain() {
            VALUE => Taken::Value(T::from_word(self.word)),
            NOTHING => Taken::Nothing,
            OVERTAKEN => Taken::Overtaken,
            _ => self.unforeseen(),
        }
    }
}
