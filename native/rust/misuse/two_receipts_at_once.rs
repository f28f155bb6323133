// error: E0499
use hillgauze::Receiver;

fn main() {}

async fn receive_two(mut receiver: Receiver<String>) {
    let first = receiver.recv();
    let second = receiver.recv(); // here
    first.await;
    second.await;
}
