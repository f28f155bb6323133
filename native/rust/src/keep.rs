//! How a flow keeps its values: as words, in the lane itself, or in slots beside it, of which the lane's words tell.

use crate::slots::SlotStore;
use crate::word::Word;
use std::ops::Range;

/// How a [`Sender`](crate::Sender) and its receivers keep values: [`Slots`] or [`Words`]. Nobody else can be it.
pub trait Storage<T>: Keep<T> {}

/// Values of any type that is `Clone`: each lies in a slot of its own, beside the word that the lane has for it. A
/// receipt takes the lock of that slot, clones the value, and lets the last receiver have the value itself.
#[derive(Debug)]
pub enum Slots {}

/// Values that are [`Word`]s: the lane itself has them, and a receipt takes no lock.
#[derive(Debug)]
pub enum Words {}

impl<T: Clone> Storage<T> for Slots {}
impl<T: Word> Storage<T> for Words {}

/// What is behind [`Storage`], which can't be named outside this crate: where the values of one flow are, by the numbers of
/// their emissions. Each flow has slots, of which words use none.
///
/// All but `take` and `word` are called under the flow's lock, and none of these runs code of others: a value that is let
/// go is handed out.
pub trait Keep<T> {
    /// The slots of a flow.
    fn slots(places: u64, replay: u64) -> SlotStore<T>;

    /// The word of a value, as far as it has one of its own. This is code of others, and runs under no lock.
    fn word(value: &T) -> u64;

    /// Keeps the value of an emission that so many receivers will get, if it is accepted. Gives the lane's word for it,
    /// and a value that it takes the place of.
    fn put(
        slots: &SlotStore<T>,
        number: u64,
        receivers: usize,
        word: u64,
        value: &mut Option<T>,
    ) -> (u64, Option<T>);

    /// Gives back the value of an emission that wasn't accepted.
    fn take_back(slots: &SlotStore<T>, number: u64, value: &mut Option<T>);

    /// An emission was accepted, for so many receivers: a value that nobody will get any more is handed out.
    fn settle(slots: &SlotStore<T>, number: u64, receivers: usize) -> Option<T>;

    /// The value of a word that a receiver took. Nothing where another one took its place just then.
    fn take(slots: &SlotStore<T>, word: u64) -> Option<T>;

    /// One more receiver will get these.
    fn join(slots: &SlotStore<T>, numbers: Range<u64>);

    /// One receiver won't get these any more.
    fn leave(slots: &SlotStore<T>, numbers: Range<u64>) -> Vec<T>;

    /// These aren't for receivers to come any more.
    fn reset(slots: &SlotStore<T>, numbers: Range<u64>) -> Vec<T>;
}

impl<T: Clone> Keep<T> for Slots {
    fn slots(places: u64, replay: u64) -> SlotStore<T> {
        SlotStore::new(places, replay)
    }

    #[inline]
    fn word(_value: &T) -> u64 {
        0
    }

    #[inline]
    fn put(
        slots: &SlotStore<T>,
        number: u64,
        receivers: usize,
        _word: u64,
        value: &mut Option<T>,
    ) -> (u64, Option<T>) {
        (number, slots.put(number, receivers, value))
    }

    #[inline]
    fn take_back(slots: &SlotStore<T>, number: u64, value: &mut Option<T>) {
        *value = slots.take_back(number);
    }

    #[inline]
    fn settle(slots: &SlotStore<T>, number: u64, receivers: usize) -> Option<T> {
        slots.settle(number, receivers)
    }

    #[inline]
    fn take(slots: &SlotStore<T>, word: u64) -> Option<T> {
        slots.take(word)
    }

    fn join(slots: &SlotStore<T>, numbers: Range<u64>) {
        slots.join(numbers);
    }

    fn leave(slots: &SlotStore<T>, numbers: Range<u64>) -> Vec<T> {
        slots.leave(numbers)
    }

    fn reset(slots: &SlotStore<T>, numbers: Range<u64>) -> Vec<T> {
        slots.reset(numbers)
    }
}

impl<T: Word> Keep<T> for Words {
    fn slots(_places: u64, _replay: u64) -> SlotStore<T> {
        SlotStore::none()
    }

    #[inline]
    fn word(value: &T) -> u64 {
        value.to_word()
    }

    #[inline]
    fn put(
        _slots: &SlotStore<T>,
        _number: u64,
        _receivers: usize,
        word: u64,
        _value: &mut Option<T>,
    ) -> (u64, Option<T>) {
        (word, None)
    }

    #[inline]
    fn take_back(_slots: &SlotStore<T>, _number: u64, _value: &mut Option<T>) {}

    #[inline]
    fn settle(_slots: &SlotStore<T>, _number: u64, _receivers: usize) -> Option<T> {
        None
    }

    #[inline]
    fn take(_slots: &SlotStore<T>, word: u64) -> Option<T> {
        Some(T::from_word(word))
    }

    fn join(_slots: &SlotStore<T>, _numbers: Range<u64>) {}

    fn leave(_slots: &SlotStore<T>, _numbers: Range<u64>) -> Vec<T> {
        Vec::new()
    }

    fn reset(_slots: &SlotStore<T>, _numbers: Range<u64>) -> Vec<T> {
        Vec::new()
    }
}
