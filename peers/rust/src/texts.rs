//! One thread: a text of 40 bytes is emitted, then each reader takes it, a clone of its own.

use crate::figures::{cost, timed, Figure};
use tokio::sync::broadcast::channel;

const VALUES: u64 = 2_000_000;
const CAPACITY: usize = 64;
const TEXT: &str = "An event has a text of some forty bytes.";

pub fn measure() {
    for readers in [1, 4, 8] {
        let figure = Figure {
            peer: "tokio-broadcast",
            scenario: &format!("texts-n{readers}"),
            name: "receipt",
        };
        cost(figure, VALUES, readers, |count| {
            timed(|| {
                let bytes = bytes_taken(readers, count);
                assert_eq!(bytes, count * readers as u64 * TEXT.len() as u64);
                bytes
            })
        });
    }
}

/// How many bytes the readers took.
fn bytes_taken(readers: usize, count: u64) -> u64 {
    let (sender, first) = channel(CAPACITY);
    let mut all = vec![first];
    all.resize_with(readers, || sender.subscribe());
    let text = String::from(TEXT);
    let mut bytes = 0;
    for _ in 0..count {
        sender.send(text.clone()).unwrap();
        for reader in &mut all {
            bytes += reader.try_recv().unwrap().len() as u64;
        }
    }
    bytes
}
