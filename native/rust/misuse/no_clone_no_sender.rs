// error: E0277
use hillgauze::Sender;

struct Single;

fn main() {}

fn keep(_sender: Sender<Single>) {} // here
