//! A script's commands, made on flows and states, and their answers. A row is taken as well formed.

use crate::flows::Flow;
use hillgauze::{
    Begun, Collector, Config, Emit, Next, Policy, Refusal, StateSeat, Ticket, Tried, Withdrawn,
};
use std::collections::HashMap;

/// What a name is bound to. Flows and states are named by themselves.
enum Bound {
    Subscription {
        flow: String,
        number: usize,
    },
    /// An emission, with the ticket of one that wasn't finished at once.
    Emission {
        flow: String,
        ticket: Option<Ticket>,
    },
    /// A collector of a state, until it is cancelled.
    Collector {
        state: String,
        collector: Option<Collector<u64>>,
    },
}

/// What the commands so far have made.
pub struct Script<F> {
    flows: HashMap<String, F>,
    states: HashMap<String, StateSeat<u64>>,
    bound: HashMap<String, Bound>,
}

fn number<N: std::str::FromStr>(word: &str) -> N {
    word.parse().unwrap_or_else(|_| panic!("a number: {word}"))
}

fn list(word: &str) -> Vec<u64> {
    word.split(',').map(number).collect()
}

fn policy(word: &str) -> Policy {
    match word {
        "suspend" => Policy::Suspend,
        "oldest" => Policy::DropOldest,
        "latest" => Policy::DropLatest,
        _ => panic!("a policy: {word}"),
    }
}

fn ok_or_refused<T>(answer: Result<T, Refusal>) -> String {
    answer.map_or_else(refused, |_| "ok".to_string())
}

fn refused(refusal: Refusal) -> String {
    format!("refused {}", refusal.number())
}

fn value_or_pending(value: Option<u64>) -> String {
    value.map_or_else(|| "pending".to_string(), |value| format!("value {value}"))
}

fn ok_or_closed(was_live: bool) -> String {
    if was_live { "ok" } else { "closed" }.to_string()
}

impl<F: Flow> Script<F> {
    pub fn new() -> Script<F> {
        Script {
            flows: HashMap::new(),
            states: HashMap::new(),
            bound: HashMap::new(),
        }
    }

    fn flow(&mut self, name: &str) -> &mut F {
        self.flows.get_mut(name).expect("a flow")
    }

    fn state(&mut self, name: &str) -> &mut StateSeat<u64> {
        self.states.get_mut(name).expect("a state")
    }

    /// Makes one command, and answers as the program does.
    pub fn answer(&mut self, command: &str) -> String {
        let words: Vec<&str> = command.split(' ').collect();
        match words[..] {
            ["shared", name, replay, extra, policy] => self.shared(name, replay, extra, policy),
            ["sub", flow, name] => self.subscribe(flow, name, &[]),
            ["sub", flow, name, "with", prelude] => self.subscribe(flow, name, &list(prelude)),
            ["try", flow, value] => self.try_emit(flow, number(value)),
            ["emit", flow, name, value] => self.emit(flow, name, number(value)),
            ["poll", name] => self.poll(name),
            ["withdraw", name] => self.withdraw(name),
            ["next", name] => self.next(name),
            ["cancel", name] => self.cancel(name),
            ["reset", flow] => {
                self.flow(flow).reset();
                "ok".to_string()
            }
            ["cache", flow] => format!("{:?}", self.flow(flow).cache()).replace(' ', ""),
            ["count", name] => self.count(name),
            ["state", name, value] => self.make_state(name, number(value)),
            ["set", state, value] => {
                self.state(state).set(number(value));
                "ok".to_string()
            }
            ["cas", state, expect, update] => self
                .state(state)
                .compare_and_set(number(expect), number(update))
                .to_string(),
            ["value", state] => format!("value {}", self.state(state).value()),
            ["collect", state, name] => self.collect(state, name),
            _ => panic!("a command: {command}"),
        }
    }

    fn shared(&mut self, name: &str, replay: &str, extra: &str, word: &str) -> String {
        let config = Config {
            replay: number(replay),
            extra: number(extra),
            policy: policy(word),
            subscribers: 8,
            emits: 8,
            first: 0,
        };
        let made = F::new(config).map(|flow| self.flows.insert(name.to_string(), flow));
        ok_or_refused(made)
    }

    fn subscribe(&mut self, flow: &str, name: &str, prelude: &[u64]) -> String {
        let subscribed = self.flow(flow).subscribe(prelude);
        ok_or_refused(subscribed.map(|number| {
            let flow = flow.to_string();
            self.bound
                .insert(name.to_string(), Bound::Subscription { flow, number });
        }))
    }

    fn try_emit(&mut self, flow: &str, value: u64) -> String {
        match self.flow(flow).try_emit(value) {
            Ok(Tried::Accepted(_)) => "accepted".to_string(),
            Ok(Tried::Dropped) => "dropped".to_string(),
            Ok(Tried::Full) => "full".to_string(),
            Err(refusal) => refused(refusal),
        }
    }

    fn emit(&mut self, flow: &str, name: &str, value: u64) -> String {
        let (ticket, answer) = match self.flow(flow).start_emit(value) {
            Ok(Begun::Accepted(_)) => (None, "accepted"),
            Ok(Begun::Dropped) => (None, "dropped"),
            Ok(Begun::Waiting(ticket)) => (Some(ticket), "waiting"),
            Err(refusal) => return refused(refusal),
        };
        let flow = flow.to_string();
        self.bound
            .insert(name.to_string(), Bound::Emission { flow, ticket });
        answer.to_string()
    }

    // The flow and the ticket of an emission that may be out.
    fn emission(&mut self, name: &str) -> Option<(&mut F, Ticket)> {
        match self.bound.get(name) {
            Some(Bound::Emission { flow, ticket }) => {
                let flow = self.flows.get_mut(flow).expect("a flow");
                ticket.map(|ticket| (flow, ticket))
            }
            _ => panic!("an emission: {name}"),
        }
    }

    fn poll(&mut self, name: &str) -> String {
        let answer = self
            .emission(name)
            .map_or(Emit::Gone, |(flow, ticket)| flow.poll_emit(ticket));
        match answer {
            Emit::Done(_) => "done",
            Emit::Waiting => "waiting",
            Emit::Gone => "gone",
        }
        .to_string()
    }

    fn withdraw(&mut self, name: &str) -> String {
        let answer = self
            .emission(name)
            .map_or(Withdrawn::Gone, |(flow, ticket)| flow.cancel_emit(ticket));
        match answer {
            Withdrawn::Removed => "removed",
            Withdrawn::Left(_) => "left",
            Withdrawn::Gone => "gone",
        }
        .to_string()
    }

    fn next(&mut self, name: &str) -> String {
        let answer = match self.bound.get_mut(name) {
            Some(Bound::Subscription { flow, number }) => {
                self.flows.get_mut(flow).expect("a flow").next(*number)
            }
            Some(Bound::Collector {
                collector: Some(collector),
                ..
            }) => {
                return value_or_pending(collector.try_next());
            }
            Some(Bound::Collector {
                collector: None, ..
            }) => Next::Closed,
            _ => panic!("a subscription or a collector: {name}"),
        };
        match answer {
            Next::Value(value) => value_or_pending(Some(value)),
            Next::Nothing => value_or_pending(None),
            Next::Closed => ok_or_closed(false),
        }
    }

    fn cancel(&mut self, name: &str) -> String {
        match self.bound.get_mut(name) {
            Some(Bound::Subscription { flow, number }) => {
                ok_or_closed(self.flows.get_mut(flow).expect("a flow").cancel(*number))
            }
            Some(Bound::Collector { state, collector }) => {
                let Some(collector) = collector.take() else {
                    return ok_or_closed(false);
                };
                let seat = collector.cancel();
                self.states
                    .get_mut(state)
                    .expect("a state")
                    .give_back(seat)
                    .expect("a seat of this state");
                ok_or_closed(true)
            }
            _ => panic!("a subscription or a collector: {name}"),
        }
    }

    fn count(&mut self, name: &str) -> String {
        match self.states.get(name) {
            Some(state) => state.collectors().to_string(),
            None => self.flow(name).count().to_string(),
        }
    }

    fn make_state(&mut self, name: &str, value: u64) -> String {
        ok_or_refused(
            StateSeat::new(value, 9).map(|seat| self.states.insert(name.to_string(), seat)),
        )
    }

    fn collect(&mut self, state: &str, name: &str) -> String {
        let seat = self.state(state).take_seat(0);
        let collector = seat.map(StateSeat::collect);
        ok_or_refused(collector.map(|collector| {
            let state = state.to_string();
            self.bound.insert(
                name.to_string(),
                Bound::Collector {
                    state,
                    collector: Some(collector),
                },
            );
        }))
    }
}
