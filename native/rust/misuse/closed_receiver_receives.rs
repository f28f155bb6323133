// error: E0382
use hillgauze::Receiver;

fn main() {}

fn receive_after_close(mut receiver: Receiver<u64>) {
    receiver.close();
    receiver.recv_blocking(); // here
}
