// error: E0277
use hillgauze::Reader;

fn main() {}

fn copy(reader: &Reader<u64>) -> Reader<u64> {
    <Reader<u64> as Clone>::clone(reader) // here
}
