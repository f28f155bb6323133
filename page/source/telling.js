// What the marks of a picture say, in words.

const ROLE_VERBS = { flow: "is made", state: "is made", buffer: "is made", sub: "subscribes", collector: "collects" };
/** Why a column has nothing in it. */
const COLD_LINE = "a pipe, drawn by itself";
const REFUSED_LINE = "nothing: the line was refused";
const BAD_LINE = "its number is crossed out";

/** Which flow or state a subscription, a collector or a ticket is of, by the name of its row. */
function hostsOf(turns) {
  const hosts = new Map();
  const roles = { sub: "sub", collect: "collector", emit: "ticket" };
  for (const { words: [command, host, name], answer } of turns) {
    if (Object.hasOwn(roles, command) && answer !== undefined && !isBad(answer)) hosts.set(`${roles[command]} ${name}`, host);
  }
  return hosts;
}

/** Why a value is lost, by who lost it; and what `off` says. */
const LOST_SINCE = { sub: ": no place was free, so the oldest made way", collector: " to a newer value" };
const OFF_TICK = "answers off to a tick: its source isn't being collected";

/** Tells each cell of a picture its line, the name of its row, and whether it is the first there. */
function tellCells(picture, turns) {
  const numbers = emissionNumbers(turns);
  const begun = new Set();
  picture.hosts = hostsOf(turns);
  for (const cell of picture.cells) {
    cell.turn = turns[cell.column - 1];
    cell.line = cell.turn?.number;
    if (cell.row === 0) continue;
    cell.name = picture.names[cell.row]?.words ?? "";
    cell.numbers = numbers;
    cell.isFirst = !begun.has(cell.row);
    begun.add(cell.row);
  }
}

/** The sentence on a told cell. */
function sentenceOf(cell) {
  cell.sentence ??= `${cell.name} ${sentenceOn(cell)}`;
  return cell.sentence;
}

/** The cells of a line on rows. */
function cellsOf({ column }) {
  return page.runs[0]?.picture.columns[column]?.filter(({ row }) => row > 0) ?? [];
}

function hasMarks(turn) {
  return cellsOf(turn).length > 0;
}

/** The sentences on all marks of a line; where it has none, why. */
function tellTurn(turn) {
  if (hasMarks(turn)) return cellsOf(turn).map(sentenceOf).join("; ");
  if (isBad(turn.answer)) return `${BAD_LINE}${reasonAt(turn.number, ": ")}`;
  return turn.words[0] === "cold" ? COLD_LINE : REFUSED_LINE;
}

/** The emissions that a cell shows, one for each mark: { flow, emission }. On a flow's row their numbers stand above them. */
function emissionsOf(cell) {
  const [role, name] = cell.name.split(" ");
  const numbers = cell.elements.filter(({ look }) => look === "number");
  if (numbers.length > 0) return numbers.map(({ words }) => ({ flow: name, emission: Number(words.slice(1)) }));
  const received = role === "sub" ? cell.numbers.get(cell.line)?.get(name) : undefined;
  return received ? [received] : [];
}

/** What a cell shows, as the rest of a sentence that begins with the name of its row. */
function sentenceOn(cell) {
  const [role] = cell.name.split(" ");
  const looks = cell.elements.map(({ look, tag }) => look || tag);
  const value = cell.elements.find(({ tag, look }) => tag === "text" && look !== "number")?.words;
  const [emission] = emissionsOf(cell);
  const number = emission ? `, emission ${emission.emission}` : "";
  if (looks.includes("bar")) return cell.isFirst ? ROLE_VERBS[role] : "is cancelled";
  if (looks.includes("circle")) return { ticket: "waits still", buffer: "has nothing to give" }[role] ?? "finds nothing to receive";
  if (looks.includes("value")) return stateSentence(cell, value);
  if (looks.includes(LET_IN)) return letInSentence(cell);
  if (looks.includes("accepted")) return `accepted ${value}${number}`;
  if (looks.includes("received prelude")) return `received ${value} of its prelude`;
  if (looks.includes("received")) return `${role === "buffer" ? "gave" : "received"} ${value}${number}`;
  if (looks.includes("lost")) return `lost ${value}${number}${LOST_SINCE[role]}`;
  if (looks.includes("dropped")) return `dropped ${value}: no place was free`;
  if (looks.includes("full")) return `was full: ${value} isn't emitted`;
  if (looks.includes("path")) return tickSentence(cell, value);
  if (looks.includes("before")) return `begins to wait with ${value}`;
  if (cell.turn?.words[0] === "tick" && cell.turn.answer === "off") return OFF_TICK;
  return `answers ${cell.turn?.answer ?? value}`;
}

/** An emission without places is told to wait, though it is accepted at its own line. */
function letInSentence(cell) {
  const values = cell.elements.filter(({ look }) => look === "framed").map(({ words }) => words);
  const numbers = emissionsOf(cell).map(({ emission }) => emission);
  const [were, emissions] = values.length === 1 ? ["was", "emission"] : ["were", "emissions"];
  return `accepted ${listed(values)}, which ${were} told to wait: ${emissions} ${listed(numbers)}`;
}

/** Some words one after another, as a sentence names them. */
function listed(words) {
  return words.length < 2 ? words.join("") : `${words.slice(0, -1).join(", ")} and ${words.at(-1)}`;
}

/** What was taken at a tick is known later than its answer. */
function tickSentence({ turn, taken }, value) {
  const answers = `answers ${turn?.answer ?? value} to a tick`;
  return taken ? `${answers}, and ${sentenceOfTaken(taken)}` : `${answers}: it takes what its upstream gives, if anything`;
}

function stateSentence(cell, value) {
  if (cell.isFirst) return `is made with ${value}`;
  return cell.turn?.words[0] === "value" ? `has ${value}` : `is set to ${value}`;
}

/** Why a picture is empty; nothing where it isn't. */
function whyEmpty(picture, turns, script) {
  if (!isEmpty(picture)) return "";
  if (turns.length === 0) {
    return `Nothing is drawn: ${script.trim() === "" ? "the script is empty" : "no line asks for anything"}.`;
  }
  const bad = turns.filter(({ answer }) => isBad(answer)).length;
  const cold = turns.filter(({ words, answer }) => words[0] === "cold" && !isBad(answer)).length;
  const refused = turns.length - bad - cold;
  const reasons = ["Nothing is drawn but the numbers of lines."];
  if (cold > 0) reasons.push(`${plural(cold, "pipe has a picture", "pipes have pictures")} of ${cold === 1 ? "its" : "their"} own.`);
  if (bad > 0) reasons.push(`${plural(bad, "line is bad", "lines are bad")}.`);
  if (refused > 0) reasons.push(`${plural(refused, "line was refused", "lines were refused")}.`);
  return reasons.join(" ");
}
