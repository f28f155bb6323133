// error: E0505
use hillgauze::Sender;

fn main() {}

async fn emit_after_the_end(sender: Sender<String>) {
    let emission = sender.emit("late".to_string());
    drop(sender); // here
    let _ = emission.await;
}
