// error: E0382
use hillgauze::StateSeat;

fn main() {}

fn set_while_collecting(mut seat: StateSeat<u64>) {
    let _collector = seat.collect();
    seat.set(1); // here
}
