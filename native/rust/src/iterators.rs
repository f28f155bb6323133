//! Receivers as iterators.

use crate::waiting::Receive;

/// What is pending for a receiver now, value by value: std's `TryIter`. It ends where nothing is, and may go on later.
#[derive(Debug)]
#[must_use = "an iterator does nothing unless it is asked"]
pub struct TryIter<'a, R>(&'a mut R);

/// The values of a receiver as they come, until the end: std's `Iter`. Where there is none yet the thread sleeps.
#[derive(Debug)]
#[must_use = "an iterator does nothing unless it is asked"]
pub struct Iter<'a, R>(&'a mut R);

/// The same of a receiver that it has: std's `IntoIter`.
#[derive(Debug)]
#[must_use = "an iterator does nothing unless it is asked"]
pub struct IntoIter<R>(R);

impl<'a, R> TryIter<'a, R> {
    pub(crate) fn over(receiver: &'a mut R) -> TryIter<'a, R> {
        TryIter(receiver)
    }
}

impl<'a, R> Iter<'a, R> {
    pub(crate) fn over(receiver: &'a mut R) -> Iter<'a, R> {
        Iter(receiver)
    }
}

impl<R> IntoIter<R> {
    pub(crate) fn over(receiver: R) -> IntoIter<R> {
        IntoIter(receiver)
    }
}

impl<R: Receive> Iterator for TryIter<'_, R> {
    type Item = R::Item;

    #[inline]
    fn next(&mut self) -> Option<R::Item> {
        self.0.receive()
    }
}

impl<R: Receive> Iterator for Iter<'_, R> {
    type Item = R::Item;

    #[inline]
    fn next(&mut self) -> Option<R::Item> {
        self.0.wait()
    }
}

impl<R: Receive> Iterator for IntoIter<R> {
    type Item = R::Item;

    #[inline]
    fn next(&mut self) -> Option<R::Item> {
        self.0.wait()
    }
}
