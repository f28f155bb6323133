//! Values on their way to the library and back, block by block.

use crate::refusal::Refusal;
use crate::word::Word;
use std::mem::MaybeUninit;

/// How many words a block has: as many as a reader takes at once.
pub(crate) const BLOCK: usize = 64;

/// The words of a block on their way to the library. None is set before it is needed: that would cost as much as to pass on
/// some values.
struct Block([MaybeUninit<u64>; BLOCK]);

impl Block {
    /// Writes the words of these values, of which there are no more than a block has, and gives those.
    fn of<T: Word>(&mut self, values: &[T]) -> &[u64] {
        let words = &mut self.0[..values.len()];
        for (word, value) in words.iter_mut().zip(values) {
            word.write(value.to_word());
        }
        let words: *const [MaybeUninit<u64>] = words;
        // SAFETY: each of these words was written just now, and such a word lies there as a u64 does.
        unsafe { &*(words as *const [u64]) }
    }
}

/// Room for the words of a block on their way from the library, which asks for words that are set, and sets them again.
/// It is made for the first block, and kept.
#[derive(Default)]
pub(crate) struct Room(Option<Box<[u64; BLOCK]>>);

impl Room {
    pub(crate) fn words(&mut self) -> &mut [u64; BLOCK] {
        self.0.get_or_insert_with(|| Box::new([0; BLOCK]))
    }
}

/// Adds the values of these words.
pub(crate) fn add_all<T: Word>(values: &mut Vec<T>, words: &[u64]) {
    values.extend(words.iter().map(|&word| T::from_word(word)));
}

/// Emits the values block by block, up to the first that isn't accepted, and says how many were; `emit` does so for the
/// words of one block, also where there are none. A refusal is told where no value was accepted.
pub(crate) fn emit_all<T: Word>(
    values: &[T],
    mut emit: impl FnMut(&[u64]) -> Result<u64, Refusal>,
) -> Result<u64, Refusal> {
    let mut block = Block([MaybeUninit::uninit(); BLOCK]);
    let mut accepted = 0;
    let mut rest = values;
    loop {
        let (first, later) = rest.split_at(rest.len().min(BLOCK));
        match emit(block.of(first)) {
            Ok(count) => accepted += count,
            Err(refusal) if accepted == 0 => return Err(refusal),
            Err(_) => return Ok(accepted),
        }
        rest = later;
        if rest.is_empty() || accepted < (values.len() - rest.len()) as u64 {
            return Ok(accepted);
        }
    }
}
