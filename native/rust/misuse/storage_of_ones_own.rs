// error: E0277
use hillgauze::Storage;

enum Own {}

fn main() {}

impl Storage<u64> for Own {} // here
