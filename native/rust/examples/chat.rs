//! A chat between threads: members come, say what they have to say, hear each other, and leave while others go on. The
//! room ends by itself, once nobody is left who may speak.

use hillgauze::{Config, Receiver, Sender};
use std::error::Error;
use std::fmt;
use std::thread;

type Failure = Box<dyn Error + Send + Sync>;

#[derive(Clone, Debug, PartialEq)]
enum Line {
    Comes(&'static str),
    Says(&'static str, String),
    Leaves(&'static str),
}

impl fmt::Display for Line {
    fn fmt(&self, output: &mut fmt::Formatter<'_>) -> fmt::Result {
        match self {
            Line::Comes(name) => write!(output, "{name} comes"),
            Line::Says(name, text) => write!(output, "{name}: {text}"),
            Line::Leaves(name) => write!(output, "{name} leaves"),
        }
    }
}

/// What a member heard, and the number of the first line of it.
struct Heard {
    name: &'static str,
    first: usize,
    lines: Vec<Line>,
}

struct Member {
    name: &'static str,
    texts: &'static [&'static str],
    /// Leaves after its last word; else it hears to the end.
    leaves: bool,
}

impl Member {
    /// Speaks on this thread and hears on another. A thread that did both could wait here for itself: an emission
    /// waits until each receiver has room.
    fn take_part(self, room: Sender<Line>) -> Result<Heard, Failure> {
        let receiver = room.subscribe()?;
        let hearing = thread::spawn(move || hear(self.name, receiver));
        room.emit_blocking(Line::Comes(self.name))?;
        for text in self.texts {
            room.emit_blocking(Line::Says(self.name, text.to_string()))?;
        }
        if self.leaves {
            room.emit_blocking(Line::Leaves(self.name))?;
        }
        drop(room); // who has nothing to say any more doesn't keep the room open
        Ok(hearing.join().expect("a member hears"))
    }
}

/// Hears until the member itself leaves, or the room ends. The loop takes the receiver with it, and so closes it.
fn hear(name: &'static str, receiver: Receiver<Line>) -> Heard {
    let first = receiver.start() as usize;
    let mut lines = Vec::new();
    for line in receiver {
        let is_gone = line == Line::Leaves(name);
        lines.push(line);
        if is_gone {
            break;
        }
    }
    Heard { name, first, lines }
}

fn main() -> Result<(), Failure> {
    let room = Sender::new(Config {
        replay: 2, // who comes hears the last two lines first
        extra: 2,
        ..Config::default()
    })?;
    let ada = Member {
        name: "Ada",
        texts: &["hello!", "who is there?", "I have to think."],
        leaves: false,
    };
    let grace = Member {
        name: "Grace",
        texts: &["good morning.", "I found a moth."],
        leaves: true,
    };
    let emmy = Member {
        name: "Emmy",
        texts: &["am I late?", "what did I miss?"],
        leaves: false,
    };
    let minutes = room.subscribe()?;
    let mut members = Vec::new();
    for member in [ada, grace] {
        let room = room.clone();
        members.push(thread::spawn(move || member.take_part(room)));
    }
    // Emmy comes when Grace has left. Until then the room is kept open for her.
    let mut next = Some((emmy, room));
    let mut said = Vec::new();
    for line in minutes {
        println!("{line}");
        if line == Line::Leaves("Grace") {
            if let Some((emmy, room)) = next.take() {
                members.push(thread::spawn(move || emmy.take_part(room)));
            }
        }
        said.push(line);
    }
    for member in members {
        let heard = member.join().expect("a member takes part")?;
        let last = heard.first + heard.lines.len();
        assert_eq!(heard.lines, said[heard.first..last]);
        println!("{} heard lines {} to {last}", heard.name, heard.first + 1);
    }
    Ok(())
}
