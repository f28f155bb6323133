// error: E0308
use hillgauze::StateSeat;

fn main() {}

fn give_back(mut seat: StateSeat<u64>, other: StateSeat<u32>) {
    let _given = seat.give_back(other); // here
}
