// error: E0382
use hillgauze::StateSeat;

fn main() {}

fn give_back_twice(mut seat: StateSeat<u64>, other: StateSeat<u64>) {
    let _first = seat.give_back(other);
    let _second = seat.give_back(other); // here
}
