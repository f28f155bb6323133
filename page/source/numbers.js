// Which emission a received or lost value was. A flow doesn't say it, and the picture shows an emission's number only where its flow
// accepted it.
//
// It follows from the rules of a shared flow: emissions are numbered in the order in which they are accepted, a
// subscription begins at the oldest value of the replay cache and takes what is pending in order, and under `oldest` it
// loses the oldest. So the numbers are counted here, beside the program. Each is held against the value that the program
// answered: where they disagree, the subscription's numbers are left out. Flows that share a source take their values
// unseen, and have no numbers.

/**
 * The numbers of emissions by line and name: a map from the number of a line to a map from a name to { flow, emission },
 * for each subscription that received or lost a value by that line.
 */
function emissionNumbers(turns) {
  const ledger = new Ledger();
  for (const turn of turns) ledger.read(turn);
  return ledger.found;
}

class Ledger {
  constructor() {
    this.flows = new Map();
    this.subscriptions = new Map();
    this.tickets = new Map();
    this.found = new Map();
  }

  read({ number, words, answer }) {
    const [command, name, other, ...rest] = words;
    this.line = number;
    if (command === "shared" && answer === "ok") this.make(name, words);
    else if (command === "sub" && answer === "ok") this.subscribe(name, other, rest);
    else if (command === "try" && answer === "accepted") this.accept(this.flows.get(name), BigInt(other));
    else if (command === "emit") this.emit(name, other, rest[0], answer);
    else if (command === "withdraw" && answer === "removed") this.withdraw(name);
    else if (command === "reset" && answer === "ok") this.reset(name);
    else if (command === "next" && answer?.startsWith("value ")) this.receive(name, BigInt(answer.slice(6)));
    else if (command === "cancel" && answer === "ok") this.cancel(name);
  }

  make(name, [, , replay, extra, policy]) {
    const capacity = Number(replay) + Number(extra);
    const begun = { values: [], cacheFrom: 0, waiting: [], live: new Set() };
    this.flows.set(name, { name, replay: Number(replay), capacity, policy, ...begun });
  }

  subscribe(flowName, name, rest) {
    const flow = this.flows.get(flowName);
    if (!flow) return;
    const next = Math.max(flow.values.length - flow.replay, flow.cacheFrom);
    const subscription = { name, flow, next, prelude: rest.length ? rest[1].split(",").length : 0, isKnown: true };
    this.subscriptions.set(name, subscription);
    flow.live.add(subscription);
  }

  emit(flowName, ticket, value, answer) {
    const flow = this.flows.get(flowName);
    if (!flow) return;
    if (answer === "accepted") this.accept(flow, BigInt(value));
    if (answer !== "waiting") return;
    const emission = { flow, value: BigInt(value), isWaiting: true };
    this.tickets.set(ticket, emission);
    flow.waiting.push(emission);
    // With no capacity an emission that holds a ticket may be accepted at once.
    this.settle(flow);
  }

  accept(flow, value) {
    if (!flow) return;
    if (flow.policy === "oldest") this.makeWay(flow);
    flow.values.push(value);
  }

  /** Each subscription for which as many values are pending as there are places loses its oldest. */
  makeWay(flow) {
    for (const subscription of flow.live) {
      if (flow.values.length - subscription.next < flow.capacity) continue;
      this.note(subscription);
      subscription.next += 1;
    }
  }

  withdraw(ticket) {
    const emission = this.tickets.get(ticket);
    if (emission) emission.flow.waiting = emission.flow.waiting.filter((other) => other !== emission);
  }

  reset(name) {
    const flow = this.flows.get(name);
    if (flow) flow.cacheFrom = flow.values.length;
  }

  receive(name, value) {
    const subscription = this.subscriptions.get(name);
    if (!subscription) return;
    if (subscription.prelude > 0) {
      subscription.prelude -= 1;
      return;
    }
    const { flow } = subscription;
    subscription.isKnown = subscription.isKnown && flow.values[subscription.next] === value;
    this.note(subscription);
    subscription.next += 1;
    this.settle(flow);
  }

  cancel(name) {
    const subscription = this.subscriptions.get(name);
    if (!subscription) return;
    subscription.flow.live.delete(subscription);
    this.settle(subscription.flow);
  }

  /** What waits is accepted, in order, while there is room. */
  settle(flow) {
    const places = Math.max(flow.capacity, 1);
    const hasRoom = () => [...flow.live].every((one) => flow.values.length - one.next < places);
    while (flow.waiting.length > 0 && hasRoom()) this.accept(flow, flow.waiting.shift().value);
  }

  note(subscription) {
    if (!subscription.isKnown) return;
    if (!this.found.has(this.line)) this.found.set(this.line, new Map());
    this.found.get(this.line).set(subscription.name, { flow: subscription.flow.name, emission: subscription.next });
  }
}
