// What is pending after a line: for whom, what each cache holds, who waits, and what the next emission would do. The runner answers it
// itself, on copies of the script that end with that line. To one of them calls are added that read all there is: the caches, then each
// ticket is given up, so that nothing comes after, and each who receives takes all that it has. To the other an emission is added first.

/** So many values of one are asked for. */
const MOST_PENDING = 12;
/** After a line behind so many nothing is asked. */
const MOST_ASKED_LINES = 6000;
/** Of a script that has more flows, only so many are asked, those that the line is about first. */
const MOST_HOSTS = 6;
const MOST_PARTIES = 8;
/** The value of the emission that is tried. */
const TRIED = "0";

/** Lines to add, each with what takes its answer. */
class Questions {
  constructor() {
    Object.assign(this, { lines: [], takers: [] });
  }

  ask(line, take = () => {}) {
    this.lines.push(line);
    this.takers.push(take);
  }

  /** All that somebody has, as far as it is shown. */
  askPending(party, list) {
    const most = Math.min(party.host.places, MOST_PENDING) + party.prelude;
    for (let count = 0; count <= most; count++) this.ask(`next ${party.name}`, (answer) => answer.startsWith("value ") && list.push(answer.slice(6)));
  }

  answer(answers) {
    this.takers.forEach((take, index) => take(answers[index] ?? ""));
  }
}

function askWhatIsThere({ hosts, tickets }) {
  const questions = new Questions();
  for (const host of hosts) {
    if (host.kind === "flow") questions.ask(`cache ${host.name}`, (answer) => (host.cache = answer));
    else questions.ask(`value ${host.name}`, (answer) => (host.value = answer.slice(6)));
  }
  for (const ticket of tickets) questions.ask(`withdraw ${ticket.name}`, (answer) => (ticket.state = answer));
  for (const { parties } of hosts) {
    for (const party of parties) {
      party.pending = [];
      questions.askPending(party, party.pending);
    }
  }
  return questions;
}

/** What an emission would do: its answer, and what those have then who may lose by it. */
function askNextEmission({ hosts }) {
  const questions = new Questions();
  for (const host of hosts) {
    if (!host.isShared) continue;
    questions.ask(`try ${host.name} ${TRIED}`, (answer) => (host.tried = answer));
    for (const party of host.policy === "oldest" ? host.parties : []) {
      party.after = [];
      questions.askPending(party, party.after);
    }
  }
  return questions;
}

/** The value that somebody would lose by the next emission; nothing where it loses none. */
function lossOf({ pending, after, prelude, host }) {
  if (after === undefined || host.tried !== "accepted" || pending.length > MOST_PENDING) return undefined;
  const kept = [...pending, TRIED];
  const isLost = after.length < kept.length && pending.length > prelude;
  return isLost ? pending[prelude] : undefined;
}

/** Those that a line is about come first; of many only some are left. */
function mainHosts({ hosts, tickets }, { words }) {
  if (hosts.length <= MOST_HOSTS) return { sorted: hosts, more: 0 };
  const isAbout = (host) => [host.name, ...host.parties.map(({ name }) => name)].some((name) => words.includes(name))
    || tickets.some((ticket) => ticket.flow === host.name && words.includes(ticket.name));
  const sorted = [...hosts.filter(isAbout), ...hosts.filter((host) => !isAbout(host))];
  return { sorted: sorted.slice(0, MOST_HOSTS), more: Math.max(0, sorted.length - MOST_HOSTS) };
}

class Pending {
  /** Asks by `ask` the answers to a script. */
  constructor(ask) {
    Object.assign(this, { ask, lines: [], turns: [], kept: new Map() });
  }

  /** Takes a script with its lines that have an answer. What is pending before the first line that is another is known still. */
  take(script, turns) {
    const lines = linesOf(script);
    const same = sameLines(lines, this.lines);
    for (const number of [...this.kept.keys()]) if (number > same) this.kept.delete(number);
    Object.assign(this, { lines, turns });
  }

  /** What there is after a line with an answer, as { hosts, tickets, more }; nothing where the script is too long for that. */
  async after(turn) {
    if (turn.number > MOST_ASKED_LINES) return undefined;
    if (!this.kept.has(turn.number)) this.kept.set(turn.number, this.find(turn));
    return this.kept.get(turn.number);
  }

  async find(turn) {
    const found = partiesAfter(this.turns.slice(0, turn.column));
    const { sorted, more } = mainHosts(found, turn);
    const names = new Set(sorted.map(({ name }) => name));
    const told = { hosts: sorted, tickets: found.tickets.filter(({ flow }) => names.has(flow)), more };
    for (const host of told.hosts) {
      host.unseen = Math.max(0, host.parties.length - MOST_PARTIES);
      host.parties = host.parties.slice(0, MOST_PARTIES);
    }
    const front = this.lines.slice(0, turn.number).join("\n");
    // Where there is no flow, nothing is asked of an emission.
    for (const questions of [askWhatIsThere(told), askNextEmission(told)]) {
      if (questions.lines.length === 0) continue;
      const { output } = await this.ask(`${front}\n${questions.lines.join("\n")}`);
      if (!output) this.kept.delete(turn.number);
      questions.answer(linesOf(output ?? "").slice(turn.column));
    }
    for (const host of told.hosts) for (const party of host.parties) party.loss = lossOf(party);
    return told;
  }
}
