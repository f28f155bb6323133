//! Kotlin's hot flows, whose every call is proved, as safe Rust types over a static library.
//!
//! | | What it is | Kotlin |
//! |---|---|---|
//! | [`Sender`], [`Receiver`] | a shared flow of values of any type, which threads and tasks emit to and receive from | `MutableSharedFlow`, `collect` |
//! | [`StateSeat`], [`Collector`] | a value that threads share | `MutableStateFlow`, `collect` |
//! | [`Sequencer`], [`Reader`] | a lane, the least over the library: one emits words, many receive, on threads of their own | `MutableSharedFlow`, `collect` |
//! | [`SharedState`] | a shared flow on one thread | `MutableSharedFlow` |
//!
//! Values of senders are any that are `Clone`. Those of the others, and of [`Sender::of_words`], are [`Word`]s: `Copy`, and
//! no larger than 64 bits. A call that can't be done says so by a [`Refusal`], or by an error that gives the value back.
//!
//! ```
//! use hillgauze::{Config, Sender};
//!
//! let sender = Sender::new(Config { replay: 1, extra: 15, ..Config::default() })?;
//! let receiver = sender.subscribe()?;
//! let hearing = std::thread::spawn(move || receiver.into_iter().collect::<Vec<String>>());
//! for name in ["Ada", "Grace", "Emmy"] {
//!     sender.emit_blocking(format!("hello, {name}"))?; // or .emit(..).await, or try_emit(..)
//! }
//! drop(sender); // the receiver takes the rest, and then its loop ends
//! assert_eq!(hearing.join().unwrap().len(), 3);
//! # Ok::<(), Box<dyn std::error::Error>>(())
//! ```
//!
//! # A slow reader
//! A reader has as many places as `replay` and `extra` say together. Where they are taken, the [`Policy`] of the flow
//! decides: the emission waits, the reader loses its oldest value, or the new value is dropped. Of a [`Sender`], an emission
//! that waits is asleep until there is room, [`emit`](Sender::emit) as a task and
//! [`emit_blocking`](Sender::emit_blocking) as a thread. Of a [`Sequencer`] it has a [`Ticket`], or the try is `Full`.
//!
//! An emission waits for each receiver, the emitter's own among them. So who emits and receives does that on two threads
//! or in two tasks.
//!
//! ```
//! use hillgauze::{Config, Policy, Sequencer, Tried};
//!
//! let config = Config { extra: 2, policy: Policy::DropOldest, ..Config::default() };
//! let mut sequencer = Sequencer::new(config)?;
//! let mut reader = sequencer.admit()?;
//! for value in 1..=5u32 {
//!     assert!(matches!(sequencer.try_emit(0, value)?, Tried::Accepted(_)));
//! }
//! assert_eq!(reader.try_iter().collect::<Vec<_>>(), [4, 5]);
//! let closed = reader.close();
//! assert_eq!((closed.received, closed.dropped), (2, 3));
//! # Ok::<(), hillgauze::Refusal>(())
//! ```
//!
//! # Order between threads
//! What a thread did before it began an emission happens before what another does after it received the value, by
//! whichever call of [`Reader`] or [`Receiver`] that gives values; what it did before it changed a state, before what another does after
//! it found that value or a later one; and what it did before it dropped the last who could emit or set, before what
//! another does after it was told of the end. So a value may be an index of what lies elsewhere. `hillgauze.h` has the
//! whole list.
//!
//! # Blocks
//! Words may go by the block, which costs less: [`Sender::try_emit_all`] and [`Sequencer::try_emit_all`] look at the
//! receivers once for as many as there is room for, and `recv_many` takes as many as are there, up to 64 by one step.
//!
//! ```
//! use hillgauze::{Config, Sender};
//! use std::thread;
//!
//! let sender = Sender::of_words(Config { extra: 256, ..Config::default() })?;
//! let mut receiver = sender.subscribe()?;
//! let summing = thread::spawn(move || {
//!     let (mut sum, mut values) = (0, Vec::new());
//!     while receiver.recv_many_blocking(&mut values, 100) > 0 {
//!         sum += values.drain(..).sum::<u64>();
//!     }
//!     sum
//! });
//! let values: Vec<u64> = (1..=1000).collect();
//! let mut rest = &values[..];
//! while let [next, later @ ..] = rest {
//!     sender.emit_blocking(*next)?; // waits for room
//!     let accepted = sender.try_emit_all(later)?;
//!     rest = &later[accepted as usize..];
//! }
//! drop(sender);
//! assert_eq!(summing.join().unwrap(), 500_500);
//! # Ok::<(), Box<dyn std::error::Error>>(())
//! ```
//!
//! # Want of memory
//! A flow takes its memory when it is made, a reader and a seat a little when they come; where there is none, that is
//! refused as [`NoMemory`](Refusal::NoMemory), and nothing has changed. What this crate itself allocates goes Rust's way,
//! where want of it ends the process: a block or three for a flow, its slots among them, one for an emission that waits, and
//! one now and then for receivers that sleep.
//!
//! # What is proved, and what isn't
//! What each call of the library does is proved, up to the C boundary, for every order of calls and every timing of
//! threads. This crate is plain Rust, and isn't proved: its types see to it that a handle is live, of its kind and used
//! by one call at a time; that no receiver misses a wake-up is argued in `sleepers.rs`, that no emission that waits is
//! forgotten in `gate.rs`, that each value in a slot is dropped once in `slots.rs`, and all of it is tested.
#![deny(missing_docs)]
#![deny(unsafe_op_in_unsafe_fn)]

mod after;
mod answers;
mod blocks;
mod collector;
mod config;
mod emitting;
mod flow;
mod gate;
mod iterators;
mod keep;
mod lane;
mod queue;
mod raw;
mod reader;
mod receiver;
mod refusal;
mod reply;
mod sender;
mod sequencer;
mod shared_state;
mod sleepers;
mod slots;
mod state_seat;
mod waiting;
mod word;

pub use answers::{Begun, Closed, Emit, Next, SubId, Taken, Ticket, Tried, Withdrawn};
pub use collector::Collector;
pub use config::{Config, Policy};
pub use emitting::{Emission, EmitError, EmitTimeoutError, Emitted, TryEmitError};
pub use iterators::{IntoIter, Iter, TryIter};
pub use keep::{Slots, Storage, Words};
pub use reader::Reader;
pub use receiver::{Received, Receiver, TryRecvError};
pub use refusal::Refusal;
pub use sender::Sender;
pub use sequencer::Sequencer;
pub use shared_state::SharedState;
pub use state_seat::StateSeat;
pub use waiting::{Recv, RecvMany, RecvTimeoutError};
#[doc(hidden)]
pub use word::Fields;
pub use word::Word;
