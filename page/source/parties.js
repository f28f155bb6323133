// Who is there after a line of a script: flows and states, who receives from them, and which emissions hold a ticket. It follows from
// the lines and their answers.

const FLOW_MAKERS = new Set(["shared", "share"]);
const STATE_MAKERS = new Set(["state", "stated"]);
/** What ends a ticket. */
const TICKET_ENDS = new Set(["done", "gone", "removed", "left"]);

/** A flow or a state. */
class Host {
  constructor(name, kind, { replay = 0, capacity = 0, policy = "", isShared = false, isFed = false }) {
    Object.assign(this, { name, kind, replay, capacity, policy, isShared, isFed, parties: [] });
  }

  /** How many values may be pending for each who receives from it. */
  get places() {
    return Math.max(this.capacity, 1);
  }
}

function hostOf([command, name, ...rest]) {
  if (STATE_MAKERS.has(command)) return new Host(name, "state", { isFed: command === "stated" });
  const [replay, extra, policy] = rest;
  return new Host(name, "flow", {
    replay: Number(replay),
    capacity: Number(replay) + Number(extra),
    policy,
    isShared: command === "shared",
    isFed: command === "share",
  });
}

class Parties {
  constructor() {
    Object.assign(this, { hosts: new Map(), parties: new Map(), tickets: new Map() });
  }

  read({ words, answer }) {
    const [command, name, other, ...rest] = words;
    if (answer === undefined || isBad(answer)) return;
    if (answer === "ok" && (FLOW_MAKERS.has(command) || STATE_MAKERS.has(command))) this.hosts.set(name, hostOf(words));
    else if (answer === "ok" && (command === "sub" || command === "collect")) this.join(name, other, rest[1]);
    else if (answer === "ok" && command === "cancel") this.leave(name);
    else if (command === "next" && answer.startsWith("value ")) this.receive(name);
    else if (command === "emit" && answer === "waiting") this.tickets.set(other, { name: other, flow: name, value: rest[0] });
    else if (TICKET_ENDS.has(answer)) this.tickets.delete(name);
  }

  join(hostName, name, prelude) {
    const party = { name, host: this.hosts.get(hostName), prelude: prelude === undefined ? 0 : prelude.split(",").length };
    this.parties.set(name, party);
    party.host.parties.push(party);
  }

  leave(name) {
    const party = this.parties.get(name);
    if (party) party.host.parties = party.host.parties.filter((other) => other !== party);
  }

  /** The values of a prelude are received first. */
  receive(name) {
    const party = this.parties.get(name);
    if (party?.prelude > 0) party.prelude -= 1;
  }
}

/** Who is there after these lines. */
function partiesAfter(turns) {
  const parties = new Parties();
  for (const turn of turns) parties.read(turn);
  return { hosts: [...parties.hosts.values()], tickets: [...parties.tickets.values()] };
}
