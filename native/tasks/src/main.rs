//! Tasks of tokio over flows: a station measures until it is told to stop, a display shows some readings and goes, a
//! recorder hears two flows at once and loses nothing of either, and waits are given up after a time.

use hillgauze::{Config, Receiver, Sender};
use std::error::Error;
use std::time::Duration;
use tokio::select;
use tokio::sync::oneshot;
use tokio::time::timeout;

type Failure = Box<dyn Error + Send + Sync>;

const SHORT: Duration = Duration::from_millis(20);
const LONG: Duration = Duration::from_secs(60);

#[derive(Clone, Debug, PartialEq)]
struct Reading {
    number: u64,
    text: String,
}

/// Emits readings until it is told to stop, and says how many were accepted. The one that was under way then is taken
/// back, where it wasn't accepted just before.
async fn measure(feed: Sender<Reading>, mut stop: oneshot::Receiver<()>) -> Result<u64, Failure> {
    let mut accepted = 0;
    loop {
        let mut emission = feed.emit(Reading {
            number: accepted,
            text: format!("reading {accepted}"),
        });
        select! {
            emitted = &mut emission => emitted?,
            _ = &mut stop => match emission.withdraw() {
                Ok(_reading) => return Ok(accepted),
                Err(_emitted) => return Ok(accepted + 1),
            },
        };
        accepted += 1;
    }
}

/// Shows so many readings, and goes.
async fn show(mut feed: Receiver<Reading>, most: usize) -> Option<Reading> {
    let mut last = None;
    for _ in 0..most {
        last = Some(feed.recv().await?);
    }
    last
}

/// Hears two flows until both have ended. A wait that select gives up has received nothing.
async fn record(
    mut feed: Receiver<Reading>,
    mut notes: Receiver<String>,
) -> (Vec<Reading>, Vec<String>) {
    let (mut readings, mut noted) = (Vec::new(), Vec::new());
    loop {
        select! {
            Some(reading) = feed.recv() => readings.push(reading),
            Some(note) = notes.recv() => noted.push(note),
            else => return (readings, noted),
        }
    }
}

async fn run_station() -> Result<(), Failure> {
    let feed = Sender::new(Config {
        extra: 4,
        ..Config::default()
    })?;
    let notes = Sender::new(Config::default())?;
    let recording = tokio::spawn(record(feed.subscribe()?, notes.subscribe()?));
    let showing = tokio::spawn(show(feed.subscribe()?, 100));
    let (stop, stopped) = oneshot::channel();
    let measuring = tokio::spawn(measure(feed, stopped)); // the flow ends with this task
    let shown = showing.await?.ok_or("the feed ended too early")?;
    assert_eq!(shown.number, 99);
    notes.emit(format!("shown: {}", shown.text)).await?;
    stop.send(()).map_err(|()| "the station has gone")?;
    let accepted = measuring.await??;
    drop(notes);
    let (readings, noted) = recording.await?;
    assert!(readings
        .iter()
        .map(|reading| reading.number)
        .eq(0..accepted));
    assert_eq!(noted, ["shown: reading 99"]);
    println!("one hundred readings were shown, and each was recorded");
    Ok(())
}

/// What waits is given up after a time. Of a receipt nothing is lost, and of an emission nothing stays.
async fn give_up() -> Result<(), Failure> {
    let sender = Sender::new(Config {
        extra: 1,
        ..Config::default()
    })?;
    let mut receiver = sender.subscribe()?;
    assert!(timeout(SHORT, receiver.recv()).await.is_err());
    sender.emit("one").await?;
    assert!(timeout(SHORT, sender.emit("two")).await.is_err());
    assert_eq!(sender.waiting_count(), 0);
    let waiting = tokio::spawn({
        let sender = sender.clone();
        async move { sender.emit("three").await }
    });
    waiting.abort();
    assert!(waiting.await.is_err_and(|error| error.is_cancelled()));
    assert_eq!(timeout(LONG, receiver.recv()).await?, Some("one"));
    assert!(timeout(SHORT, receiver.recv()).await.is_err());
    drop(sender);
    assert_eq!(timeout(LONG, receiver.recv()).await?, None);
    println!("what was given up came to nothing");
    Ok(())
}

#[tokio::main]
async fn main() -> Result<(), Failure> {
    timeout(LONG, run_station()).await??;
    give_up().await
}
