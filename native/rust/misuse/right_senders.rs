// What the programs about senders and receivers do, done right.
use hillgauze::{Config, Receiver, Sender, Words};
use std::thread;

fn main() {
    let sender = Sender::new(Config::default()).unwrap();
    let mut receiver = sender.subscribe().unwrap();
    thread::scope(|scope| {
        scope.spawn(|| sender.try_emit("one".to_string()).is_ok());
        scope.spawn(|| sender.try_emit("two".to_string()).is_ok());
    });
    let moved = sender.clone();
    let emitting = thread::spawn(move || drop(moved.emit_blocking("three".to_string())));
    let reading = thread::spawn(move || receiver.recv_blocking());
    drop((emitting.join(), reading.join()));

    fn may_go_to_another_thread(_: impl Send) {}
    let mut receiver = sender.subscribe().unwrap();
    may_go_to_another_thread(sender.emit("four".to_string()));
    may_go_to_another_thread(receiver.recv());

    let words: Sender<u32, Words> = Sender::of_words(Config::default()).unwrap();
    let mut word: Receiver<u32, Words> = words.subscribe().unwrap();
    words.try_emit_all(&[1, 2]).unwrap();
    may_go_to_another_thread(word.recv_many(&mut Vec::new(), 2));
    word.recv_many_blocking(&mut Vec::new(), 2);
}
