// error: E0277
use hillgauze::Sender;
use std::rc::Rc;
use std::thread;

fn main() {}

fn emit_elsewhere(sender: Sender<Rc<u64>>) {
    thread::spawn(move || drop(sender)); // here
}
