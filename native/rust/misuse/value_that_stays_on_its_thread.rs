// error: E0277
use hillgauze::{Reader, Word};
use std::marker::PhantomData;
use std::thread;

fn main() {}

#[derive(Clone, Copy, PartialEq, Eq)]
struct OfThisThread(u32, PhantomData<*const ()>);

impl Word for OfThisThread {
    fn to_word(self) -> u64 {
        u64::from(self.0)
    }

    fn from_word(word: u64) -> OfThisThread {
        OfThisThread(word as u32, PhantomData)
    }
}

fn receive_elsewhere(mut reader: Reader<OfThisThread>) {
    thread::spawn(move || drop(reader.recv_blocking())); // here
}
