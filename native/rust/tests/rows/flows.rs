//! Shared flows, as the commands of a script speak to them.

use hillgauze::{
    Begun, Config, Emit, Next, Reader, Refusal, Sequencer, SharedState, SubId, Taken, Ticket,
    Tried, Withdrawn,
};

/// A shared flow. Its subscriptions are numbered from 0 in the order in which they came.
pub trait Flow: Sized {
    fn new(config: Config) -> Result<Self, Refusal>;
    fn subscribe(&mut self, prelude: &[u64]) -> Result<usize, Refusal>;
    fn next(&mut self, subscription: usize) -> Next<u64>;
    fn cancel(&mut self, subscription: usize) -> bool;
    fn try_emit(&mut self, value: u64) -> Result<Tried, Refusal>;
    fn start_emit(&mut self, value: u64) -> Result<Begun, Refusal>;
    fn poll_emit(&mut self, ticket: Ticket) -> Emit;
    fn cancel_emit(&mut self, ticket: Ticket) -> Withdrawn;
    fn reset(&mut self);
    fn cache(&self) -> Vec<u64>;
    fn count(&self) -> u32;
}

pub struct Core {
    flow: SharedState<u64>,
    subscriptions: Vec<SubId>,
}

impl Flow for Core {
    fn new(config: Config) -> Result<Core, Refusal> {
        let flow = SharedState::new(config)?;
        Ok(Core {
            flow,
            subscriptions: Vec::new(),
        })
    }

    fn subscribe(&mut self, prelude: &[u64]) -> Result<usize, Refusal> {
        let subscription = match prelude {
            [] => self.flow.subscribe()?,
            values => self.flow.subscribe_with(values)?,
        };
        self.subscriptions.push(subscription);
        Ok(self.subscriptions.len() - 1)
    }

    fn next(&mut self, subscription: usize) -> Next<u64> {
        self.flow.next(self.subscriptions[subscription])
    }

    fn cancel(&mut self, subscription: usize) -> bool {
        self.flow.cancel(self.subscriptions[subscription])
    }

    fn try_emit(&mut self, value: u64) -> Result<Tried, Refusal> {
        self.flow.try_emit(0, value)
    }

    fn start_emit(&mut self, value: u64) -> Result<Begun, Refusal> {
        self.flow.start_emit(0, value)
    }

    fn poll_emit(&mut self, ticket: Ticket) -> Emit {
        self.flow.poll_emit(ticket)
    }

    fn cancel_emit(&mut self, ticket: Ticket) -> Withdrawn {
        self.flow.cancel_emit(ticket)
    }

    fn reset(&mut self) {
        self.flow.reset_replay();
    }

    fn cache(&self) -> Vec<u64> {
        (0..self.flow.replay_len())
            .filter_map(|index| self.flow.replay_at(index))
            .collect()
    }

    fn count(&self) -> u32 {
        self.flow.subscription_count()
    }
}

/// A lane lets a waiting emission in at its next scan, so each call that may have made room is followed by one.
pub struct Lane {
    sequencer: Sequencer<u64>,
    readers: Vec<Option<Reader<u64>>>,
}

impl Flow for Lane {
    fn new(config: Config) -> Result<Lane, Refusal> {
        let sequencer = Sequencer::new(config)?;
        Ok(Lane {
            sequencer,
            readers: Vec::new(),
        })
    }

    fn subscribe(&mut self, prelude: &[u64]) -> Result<usize, Refusal> {
        assert!(prelude.is_empty(), "a lane has no preludes");
        self.readers.push(Some(self.sequencer.admit()?));
        Ok(self.readers.len() - 1)
    }

    fn next(&mut self, subscription: usize) -> Next<u64> {
        let Some(reader) = &mut self.readers[subscription] else {
            return Next::Closed;
        };
        match reader.try_next() {
            Taken::Value(value) => {
                self.sequencer.scan();
                Next::Value(value)
            }
            Taken::Nothing => Next::Nothing,
            Taken::Overtaken => panic!("overtaken on one thread"),
        }
    }

    fn cancel(&mut self, subscription: usize) -> bool {
        let was_live = self.readers[subscription].take().is_some();
        self.sequencer.scan();
        was_live
    }

    fn try_emit(&mut self, value: u64) -> Result<Tried, Refusal> {
        self.sequencer.try_emit(0, value)
    }

    fn start_emit(&mut self, value: u64) -> Result<Begun, Refusal> {
        self.sequencer.start_emit(0, value)
    }

    fn poll_emit(&mut self, ticket: Ticket) -> Emit {
        self.sequencer.poll_emit(ticket)
    }

    fn cancel_emit(&mut self, ticket: Ticket) -> Withdrawn {
        self.sequencer.cancel_emit(ticket)
    }

    fn reset(&mut self) {
        self.sequencer.reset_replay();
    }

    fn cache(&self) -> Vec<u64> {
        (0..self.sequencer.replay_len())
            .filter_map(|index| self.sequencer.replay_at(index))
            .collect()
    }

    fn count(&self) -> u32 {
        self.sequencer.live()
    }
}
