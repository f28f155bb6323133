// error: E0599
use hillgauze::Receiver;

fn main() {}

fn receive_twice(receiver: Receiver<String>) -> [Receiver<String>; 2] {
    [receiver.clone(), receiver] // here
}
