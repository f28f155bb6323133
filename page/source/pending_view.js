// The panel that shows what is pending after the line that is pointed at.

/** So long the pointer rests before the runner is asked. */
const PENDING_MILLISECONDS = 40;

class PendingView {
  constructor(section, ask) {
    Object.assign(this, { section, pending: new Pending(ask), round: 0, timer: 0, turns: [], line: 0 });
    this.title = section.querySelector(".after");
    this.list = section.querySelector(".hosts");
    this.turn = undefined;
  }

  /** Takes another script, whose lines have these answers. What is shown stays until more is known. */
  take(script, turns) {
    this.pending.take(script, turns);
    this.turns = turns;
    this.turn = undefined;
    this.isFresh = true;
    this.section.hidden = !turns.some(({ words, answer }) => answer === "ok" && (FLOW_MAKERS.has(words[0]) || STATE_MAKERS.has(words[0])));
    this.point(this.line);
  }

  /** Shows what there is after a line, or after the one with an answer before it; where none is pointed at, after all lines. */
  point(line) {
    this.line = line;
    const { turns } = this;
    const turn = line === 0 ? turns.at(-1) : (page.byLine.get(line) ?? turns.findLast(({ number }) => number < line));
    if (turn === this.turn || this.section.hidden) return;
    this.turn = turn;
    clearTimeout(this.timer);
    this.setBusy(true);
    this.timer = setTimeout(() => this.follow(turn), PENDING_MILLISECONDS);
  }

  setBusy(isBusy) {
    this.section.setAttribute("aria-busy", String(isBusy));
  }

  async follow(turn) {
    this.round += 1;
    const { round } = this;
    const told = turn && (await this.pending.after(turn));
    if (round !== this.round || turn !== this.turn) return;
    this.show(turn, told);
    this.setBusy(false);
  }

  /** What moves with the line keeps the room that it once had, so that nothing below moves. */
  show(turn, told) {
    this.list.style.minHeight = this.isFresh ? "" : `${this.list.offsetHeight}px`;
    this.isFresh = false;
    this.title.textContent = turn ? `after line ${turn.number}` : "before the first line";
    if (told && told === this.told) return;
    this.told = told;
    if (!told) return this.list.replaceChildren(textElement("p", turn ? "The script is too long to say what is pending." : "Nothing is there yet."));
    const more = told.more > 0 ? [textElement("p", `${told.more} more, which this line isn't about.`, { class: "help" })] : [];
    this.list.replaceChildren(...told.hosts.map((host) => hostElement(host, told.tickets.filter(({ flow }) => flow === host.name))), ...more);
  }
}

function hostElement(host, tickets) {
  const element = textElement("div", "", { class: "host" });
  const head = textElement("div", "", { class: "head" });
  head.append(textElement("strong", `${host.kind} ${host.name}`), ...headOf(host));
  element.append(head, ...host.parties.map(partyElement));
  if (host.unseen > 0) element.append(textElement("p", `and ${host.unseen} more who receive`, { class: "help" }));
  element.append(...tickets.filter(({ state }) => state === "removed" || state === "left").map((ticket) => ticketElement(ticket, host)));
  const next = nextOf(host);
  if (next) element.append(textElement("p", next, { class: "next" }));
  return element;
}

/** The cache of a flow, as boxes; of a state its value. */
function headOf(host) {
  if (host.kind === "state") return [" has ", boxElement(host.value, "has")];
  const cached = host.cache === "[]" ? [] : (host.cache.match(/\d+/g) ?? []);
  const boxes = cached.map((value) => boxElement(value, "cached"));
  return [textElement("code", host.policy), " replay cache ", ...(boxes.length > 0 ? boxes.slice(-MOST_PENDING) : ["empty"])];
}

function boxElement(value, look) {
  return textElement("span", value, { class: `box ${look}` });
}

/** One who receives: what is pending for it, and its places that are free. */
function partyElement(party) {
  const element = textElement("div", "", { class: "party" });
  const boxes = textElement("span", "", { class: "boxes" });
  const own = party.pending.slice(party.prelude);
  boxes.append(...party.pending.slice(0, party.prelude).map((value) => boxElement(value, "prelude")));
  boxes.append(...own.slice(0, MOST_PENDING).map((value, index) => boxElement(value, index === 0 && party.loss !== undefined ? "pending leaves" : "pending")));
  const { places } = party.host;
  for (let at = own.length; at < Math.min(places, MOST_PENDING); at++) boxes.append(boxElement("", "free"));
  if (places > MOST_PENDING) boxes.append("…");
  element.append(textElement("code", party.name), boxes, textElement("span", sentenceOnPlaces(party, own), { class: "told" }));
  return element;
}

function sentenceOnPlaces({ host, prelude, pending }, own) {
  const { places } = host;
  const before = prelude > 0 ? `${Math.min(prelude, pending.length)} of its prelude first; ` : "";
  if (host.kind === "state") return own.length > 0 ? "a new value for it" : "nothing new for it";
  if (own.length > MOST_PENDING) return `${before}more than ${MOST_PENDING} of ${places} places taken`;
  const taken = `${before}${own.length} of ${plural(places, "place", "places")} taken`;
  return own.length >= places ? `${taken}: full` : taken;
}

function ticketElement({ name, value, state }) {
  const element = textElement("div", "", { class: "party" });
  const says = state === "removed" ? "waits for room" : "is accepted, and not asked for since";
  element.append(textElement("code", name), boxElement(value, state === "removed" ? "waits" : "cached"), textElement("span", says, { class: "told" }));
  return element;
}

/** What the next emission would do, by what the program answers to one; of a flow behind a source, by who is full. */
function nextOf(host) {
  if (host.kind === "state") return "";
  const full = host.parties.filter(({ pending, prelude }) => pending.length - prelude >= host.places).map(({ name }) => name);
  if (!host.isShared) return full.length > 0 ? `Full for ${full.join(", ")}: ${FED_NEXT[host.policy]}.` : "";
  const losses = host.parties.filter(({ loss }) => loss !== undefined).map(({ name, loss }) => `${loss} away from ${name}`);
  if (losses.length > 0) return `Full: the next emission takes ${losses.join(" and ")}.`;
  if (host.tried === "dropped") return `Full for ${full.join(", ")}: the next emission is dropped.`;
  if (host.tried === "full" && host.capacity === 0 && full.length === 0) return "No places: the next emission is handed over, and done once all have taken it.";
  if (host.tried === "full") return `${full.length > 0 ? `Full for ${full.join(", ")}` : "Others wait"}: the next emission waits; a try is refused.`;
  if (host.tried !== "accepted") return "";
  return host.parties.length === 0 && host.unseen === 0 ? "Nobody receives: the next emission is accepted, and waits for nobody." : "There is room: the next emission is accepted.";
}

const FED_NEXT = {
  suspend: "what its source gives next waits",
  oldest: "what its source gives next takes the oldest away",
  latest: "what its source gives next is dropped",
};
