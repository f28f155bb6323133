// error: E0382
use hillgauze::Reader;

fn main() {}

fn take_after_the_end(mut reader: Reader<u64>) {
    let _closed = reader.close();
    let _taken = reader.try_next(); // here
}
