//! `peers SCENARIO..` measures Rust's peers in these scenarios.

mod asleep;
mod async_broadcasts;
mod blocked;
mod blocks;
mod busy;
mod churn;
mod cold;
mod crossbeams;
mod fan_out;
mod figures;
#[cfg(feature = "hillgauze")]
mod hillgauze_rust;
#[cfg(feature = "hillgauze")]
mod hillgauze_senders;
mod lane_model;
mod lossy;
mod lossy_ring;
mod machine;
mod mutex_queue;
mod orders;
mod padded;
mod pause;
mod ping_pong;
mod pipes;
mod polled;
mod race;
mod receipts;
mod ring;
mod split;
mod state;
mod states;
mod talks;
mod tasks;
mod texts;
mod tokio_broadcast;
mod wake;

const SCENARIOS: [(&str, fn()); 16] = [
    ("receipts", receipts::measure),
    ("receipts-by16", receipts::measure_by_block),
    ("fan-out", fan_out::measure),
    ("fan-out-by64", fan_out::measure_by_block),
    ("lossy", lossy::measure),
    ("state", state::measure),
    ("split", split::measure),
    ("cold", cold::measure),
    ("ping-pong", ping_pong::measure),
    ("wake", wake::measure),
    ("tasks", tasks::measure_notes),
    ("lag", tasks::measure_lags),
    ("asleep", asleep::measure),
    ("churn", churn::measure),
    ("texts", texts::measure),
    ("machine", machine::measure),
];

fn main() {
    for word in std::env::args().skip(1) {
        for (name, measure) in SCENARIOS {
            if word == name {
                measure();
            }
        }
    }
}
