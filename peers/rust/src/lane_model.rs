//! The bare steps of a lane, all sequentially consistent: an emission is a store of the cell and one of the tail, a
//! receipt a compare_exchange of the reader's cursor, a drop a compare_exchange of a slow reader's. The emitter looks
//! at the cursors only where the ring seems full. No reader comes or goes, and there are no receipts of emissions.
//!
//! By the block: a look at the cursors, a store of each cell and one of the tail, and a compare_exchange for all that a
//! reader found.
//!
//! `lane-model-look` makes a lane's other steps too: a look at the cursors at each emission, and a load of the reader's
//! own cursor at each receipt.

use crate::blocks::Blocks;
use crate::padded::Padded;
use crate::polled::Polled;
use std::sync::atomic::AtomicU64;
use std::sync::atomic::Ordering::SeqCst;
use std::sync::Arc;

const NAME: &str = "lane-model";

struct Words {
    cells: Box<[AtomicU64]>,
    mask: u64,
    tail: Padded,
    cursors: Vec<Padded>,
}

pub struct Sequencer {
    words: Arc<Words>,
    tail: u64,
    /// The least cursor that was seen.
    least: u64,
}

pub struct Reader {
    words: Arc<Words>,
    which: usize,
    cursor: u64,
}

fn open(capacity: usize, readers: usize) -> (Sequencer, Vec<Reader>) {
    let words = Arc::new(Words {
        cells: (0..capacity).map(|_| AtomicU64::new(0)).collect(),
        mask: capacity as u64 - 1,
        tail: Padded::zero(),
        cursors: Padded::zeros(readers),
    });
    let reader = |which| Reader {
        words: words.clone(),
        which,
        cursor: 0,
    };
    let all = (0..readers).map(reader).collect();
    let sequencer = Sequencer {
        words,
        tail: 0,
        least: 0,
    };
    (sequencer, all)
}

impl Sequencer {
    #[inline]
    fn seems_full(&self) -> bool {
        self.tail - self.least > self.words.mask
    }

    #[inline]
    fn accept(&mut self, value: u64) {
        self.words.cells[(self.tail & self.words.mask) as usize].store(value, SeqCst);
        self.tail += 1;
        self.words.tail.0.store(self.tail, SeqCst);
    }

    /// How many of so many values there seems to be room for.
    #[inline]
    fn room(&self, most: usize) -> usize {
        let free = self.words.cells.len() as u64 - (self.tail - self.least);
        most.min(free as usize)
    }

    #[inline]
    fn accept_all(&mut self, values: &[u64]) {
        for value in values {
            self.words.cells[(self.tail & self.words.mask) as usize].store(*value, SeqCst);
            self.tail += 1;
        }
        self.words.tail.0.store(self.tail, SeqCst);
    }

    #[inline]
    fn look(&mut self) {
        let cursors = self.words.cursors.iter().map(|c| c.0.load(SeqCst));
        self.least = cursors.min().unwrap();
    }

    /// Moves each reader on to `oldest`, which lets go of what is older.
    #[inline]
    fn drop_before(&mut self, oldest: u64) {
        self.least = u64::MAX;
        for cursor in &self.words.cursors {
            let mut now = cursor.0.load(SeqCst);
            while now < oldest {
                match cursor.0.compare_exchange(now, oldest, SeqCst, SeqCst) {
                    Ok(_) => now = oldest,
                    Err(moved) => now = moved,
                }
            }
            self.least = self.least.min(now);
        }
    }
}

impl Reader {
    #[inline]
    fn try_next(&mut self) -> Option<u64> {
        loop {
            if self.cursor == self.words.tail.0.load(SeqCst) {
                return None;
            }
            let value = self.words.cells[(self.cursor & self.words.mask) as usize].load(SeqCst);
            let cursor = &self.words.cursors[self.which].0;
            match cursor.compare_exchange(self.cursor, self.cursor + 1, SeqCst, SeqCst) {
                Ok(_) => {
                    self.cursor += 1;
                    return Some(value);
                }
                Err(moved) => self.cursor = moved,
            }
        }
    }
}

/// Waits for room.
pub struct Lane;

impl Polled for Lane {
    type Emitter = Sequencer;
    type Reader = Reader;

    const NAME: &'static str = NAME;

    fn open(capacity: usize, readers: usize) -> (Sequencer, Vec<Reader>) {
        open(capacity, readers)
    }

    #[inline]
    fn try_emit(sequencer: &mut Sequencer, value: u64) -> bool {
        if sequencer.seems_full() {
            sequencer.look();
            if sequencer.seems_full() {
                return false;
            }
        }
        sequencer.accept(value);
        true
    }

    #[inline]
    fn try_next(reader: &mut Reader) -> Option<u64> {
        reader.try_next()
    }
}

/// The same with a look at each emission, and at the reader's own cursor at each receipt.
pub struct LookingLane;

impl Polled for LookingLane {
    type Emitter = Sequencer;
    type Reader = Reader;

    const NAME: &'static str = "lane-model-look";

    fn open(capacity: usize, readers: usize) -> (Sequencer, Vec<Reader>) {
        open(capacity, readers)
    }

    #[inline]
    fn try_emit(sequencer: &mut Sequencer, value: u64) -> bool {
        sequencer.look();
        if sequencer.seems_full() {
            return false;
        }
        sequencer.accept(value);
        true
    }

    #[inline]
    fn try_next(reader: &mut Reader) -> Option<u64> {
        reader.cursor = reader.words.cursors[reader.which].0.load(SeqCst);
        reader.try_next()
    }
}

impl Blocks for Lane {
    #[inline]
    fn try_emit_all(sequencer: &mut Sequencer, values: &[u64]) -> usize {
        sequencer.look();
        let room = sequencer.room(values.len());
        if room > 0 {
            sequencer.accept_all(&values[..room]);
        }
        room
    }

    #[inline]
    fn try_next_all(reader: &mut Reader, values: &mut Vec<u64>, most: usize) {
        let words = &*reader.words;
        let tail = words.tail.0.load(SeqCst);
        let end = tail.min(reader.cursor + most as u64);
        if reader.cursor == end {
            return;
        }
        let numbers = reader.cursor..end;
        values.extend(numbers.map(|at| words.cells[(at & words.mask) as usize].load(SeqCst)));
        let cursor = &words.cursors[reader.which].0;
        let moved = cursor.compare_exchange(reader.cursor, end, SeqCst, SeqCst);
        assert!(moved.is_ok(), "who loses nothing is moved by nobody else");
        reader.cursor = end;
    }
}

/// Drops the oldest value of each reader that is full.
pub struct DroppingLane;

impl Polled for DroppingLane {
    type Emitter = Sequencer;
    type Reader = Reader;

    const NAME: &'static str = NAME;

    fn open(capacity: usize, readers: usize) -> (Sequencer, Vec<Reader>) {
        open(capacity, readers)
    }

    #[inline]
    fn try_emit(sequencer: &mut Sequencer, value: u64) -> bool {
        if sequencer.seems_full() {
            sequencer.drop_before(sequencer.tail - sequencer.words.mask);
        }
        sequencer.accept(value);
        true
    }

    #[inline]
    fn try_next(reader: &mut Reader) -> Option<u64> {
        reader.try_next()
    }
}
