//! Ours, as a Rust program has it: flows of the crate native/rust, over the proved static library.

use crate::asleep::Queues;
use crate::blocked::Blocked;
use crate::blocks::{self, sum_of_values, Blocks};
use crate::churn::Churns;
use crate::polled::{self, Polled};
use hillgauze::{Begun, Config, Emit, Next, Reader, Sequencer, SharedState, SubId, Ticket, Tried};

/// Waits for room.
pub struct RustLane;

impl Polled for RustLane {
    type Emitter = Sequencer<u64>;
    type Reader = Reader<u64>;

    const NAME: &'static str = "hillgauze-rust";

    fn open(capacity: usize, readers: usize) -> (Sequencer<u64>, Vec<Reader<u64>>) {
        let config = Config {
            extra: capacity as u64,
            subscribers: readers as u32,
            ..Config::default()
        };
        let mut sequencer = Sequencer::new(config).unwrap();
        let all = (0..readers).map(|_| sequencer.admit().unwrap()).collect();
        (sequencer, all)
    }

    #[inline]
    fn try_emit(sequencer: &mut Sequencer<u64>, value: u64) -> bool {
        matches!(sequencer.try_emit(0, value).unwrap(), Tried::Accepted(_))
    }

    #[inline]
    fn try_next(reader: &mut Reader<u64>) -> Option<u64> {
        reader.try_iter().next()
    }
}

impl Blocks for RustLane {
    #[inline]
    fn try_emit_all(sequencer: &mut Sequencer<u64>, values: &[u64]) -> usize {
        sequencer.try_emit_all(0, values).unwrap() as usize
    }

    #[inline]
    fn try_next_all(reader: &mut Reader<u64>, values: &mut Vec<u64>, most: usize) {
        let _ = reader.try_next_all(values, most);
    }
}

/// A sequencer, and the places of its lane.
pub struct Emitter {
    sequencer: Sequencer<u64>,
    capacity: usize,
}

impl Blocked for RustLane {
    type Emitter = Emitter;
    type Reader = Reader<u64>;

    const NAME: &'static str = "hillgauze-rust-wait";

    fn open(capacity: usize, readers: usize) -> (Emitter, Vec<Reader<u64>>) {
        let (sequencer, all) = <RustLane as Polled>::open(capacity, readers);
        let emitter = Emitter {
            sequencer,
            capacity,
        };
        (emitter, all)
    }

    // No call of the crate sleeps until there is room.
    fn emit_all(mut emitter: Emitter, count: u64) {
        polled::emit_all::<RustLane>(&mut emitter.sequencer, emitter.capacity, count);
    }

    fn sum_of(mut reader: Reader<u64>, count: u64) -> u64 {
        let mut sum = 0u64;
        for _ in 0..count {
            sum = sum.wrapping_add(reader.recv_blocking().unwrap());
        }
        sum
    }
}

/// The same by blocks of so many values.
pub struct RustLaneBy<const BLOCK: usize>;

impl<const BLOCK: usize> Blocked for RustLaneBy<BLOCK> {
    type Emitter = Emitter;
    type Reader = Reader<u64>;

    const NAME: &'static str = <RustLane as Blocked>::NAME;

    fn open(capacity: usize, readers: usize) -> (Emitter, Vec<Reader<u64>>) {
        <RustLane as Blocked>::open(capacity, readers)
    }

    fn emit_all(mut emitter: Emitter, count: u64) {
        blocks::emit_all::<RustLane>(&mut emitter.sequencer, emitter.capacity, count, BLOCK);
    }

    fn sum_of(mut reader: Reader<u64>, count: u64) -> u64 {
        let mut values = Vec::with_capacity(BLOCK);
        let (mut taken, mut sum) = (0, 0u64);
        while taken < count {
            values.clear();
            taken += reader.recv_many_blocking(&mut values, BLOCK) as u64;
            sum = sum.wrapping_add(sum_of_values(&values));
        }
        sum
    }
}

/// A flow with one place for so many tickets.
fn one_place(emits: usize) -> Config {
    Config {
        extra: 1,
        subscribers: 1,
        emits: emits as u32,
        ..Config::default()
    }
}

/// The ticket of an emission that waits.
fn ticket_of(begun: Begun) -> Option<Ticket> {
    match begun {
        Begun::Waiting(ticket) => Some(ticket),
        Begun::Accepted(_) | Begun::Dropped => None,
    }
}

/// A lane, whose emissions wait with tickets. Nobody is woken: who has a ticket asks.
pub struct Tickets {
    sequencer: Sequencer<u64>,
    reader: Reader<u64>,
    waiting: Vec<Option<Ticket>>,
}

impl Queues for Tickets {
    const NAME: &'static str = "hillgauze-rust";

    fn open(emitters: usize) -> Tickets {
        let mut sequencer = Sequencer::new(one_place(emitters)).unwrap();
        let reader = sequencer.admit().unwrap();
        Tickets {
            sequencer,
            reader,
            waiting: vec![None; emitters],
        }
    }

    fn begin(&mut self, emitter: usize, value: u64) {
        let begun = self.sequencer.start_emit(emitter as u32, value).unwrap();
        self.waiting[emitter] = ticket_of(begun);
    }

    fn is_done(&mut self, emitter: usize) -> bool {
        self.sequencer.scan();
        let ticket = self.waiting[emitter].take();
        ticket.is_none_or(|ticket| matches!(self.sequencer.poll_emit(ticket), Emit::Done(_)))
    }

    fn receive(&mut self) -> Option<u64> {
        self.reader.try_iter().next()
    }
}

/// The same with a flow of one thread.
pub struct TicketsOfOneThread {
    flow: SharedState<u64>,
    reader: SubId,
    waiting: Vec<Option<Ticket>>,
}

impl Queues for TicketsOfOneThread {
    const NAME: &'static str = "hillgauze-rust-one-thread";

    fn open(emitters: usize) -> TicketsOfOneThread {
        let mut flow = SharedState::new(one_place(emitters)).unwrap();
        let reader = flow.subscribe().unwrap();
        TicketsOfOneThread {
            flow,
            reader,
            waiting: vec![None; emitters],
        }
    }

    fn begin(&mut self, emitter: usize, value: u64) {
        let begun = self.flow.start_emit(emitter as u32, value).unwrap();
        self.waiting[emitter] = ticket_of(begun);
    }

    fn is_done(&mut self, emitter: usize) -> bool {
        let ticket = self.waiting[emitter].take();
        ticket.is_none_or(|ticket| matches!(self.flow.poll_emit(ticket), Emit::Done(_)))
    }

    fn receive(&mut self) -> Option<u64> {
        match self.flow.next(self.reader) {
            Next::Value(value) => Some(value),
            Next::Nothing | Next::Closed => None,
        }
    }
}

/// A flow with places for as many readers as there may be.
fn many_readers() -> Config {
    Config {
        extra: 1,
        subscribers: 1024,
        ..Config::default()
    }
}

/// A lane, with readers that stay.
pub struct Guests {
    sequencer: Sequencer<u64>,
    _live: Vec<Reader<u64>>,
}

impl Churns for Guests {
    const NAME: &'static str = "hillgauze-rust";

    fn open(live: usize) -> Guests {
        let mut sequencer = Sequencer::new(many_readers()).unwrap();
        let all = (0..live).map(|_| sequencer.admit().unwrap()).collect();
        Guests {
            sequencer,
            _live: all,
        }
    }

    fn come_and_go(&mut self) {
        self.sequencer.admit().unwrap().close();
    }
}

/// A flow of one thread, with subscriptions that stay.
pub struct GuestsOfOneThread(SharedState<u64>);

impl Churns for GuestsOfOneThread {
    const NAME: &'static str = "hillgauze-rust-one-thread";

    fn open(live: usize) -> GuestsOfOneThread {
        let mut flow = SharedState::new(many_readers()).unwrap();
        for _ in 0..live {
            flow.subscribe().unwrap();
        }
        GuestsOfOneThread(flow)
    }

    fn come_and_go(&mut self) {
        let guest = self.0.subscribe().unwrap();
        assert!(self.0.cancel(guest));
    }
}
