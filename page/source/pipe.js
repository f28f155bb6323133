// A cold pipe, stage by stage: which values come out behind each, and which of them came of which.
//
// The runner answers both. What comes out it says of the front parts of the pipe. Who came of whom it says of the front parts of what
// goes into a stage: of `1,2,3` it is asked what comes out once there was `1`, and `1,2`. Such a front part fails where it is cut off,
// so that nothing of its end is seen; behind `catch`, which would see the failure, it finishes. A value came of the first one with
// which it was there; where it wasn't there with all of them, it came of the end. `zip` and `combine` are asked so of both sides.

/** A longer row isn't drawn. */
const MOST_ROW_VALUES = 40;
/** A line that is longer than this is bad. */
const MOST_ASKED_BYTES = 1024;
/** The fault of a front part where it is cut off. No pipe has it that is drawn. */
const CUT_FAULT = "18446744073709551557";
const TWO_SIDED = new Set(["zip", "combine"]);

/** The parts of a line that runs a pipe: the words of its source, and of each stage. */
function partsOf(words) {
  const parts = [[]];
  for (const word of words.slice(1)) {
    if (word === "|") parts.push([]);
    else parts.at(-1).push(word);
  }
  return parts;
}

function lineOfParts(parts) {
  return `cold ${parts.map((words) => words.join(" ")).join(" | ")}`;
}

/** What an answer to a pipe says, or nothing where it says no values: { values, fault }, the fault null where it finished. */
function readPipeAnswer(answer) {
  const said = /^\[([\d,]*)\] (finished|failed (\d+))$/.exec(answer ?? "");
  if (!said) return undefined;
  return { values: said[1] === "" ? [] : said[1].split(","), fault: said[3] ?? null };
}

/** The words of a source of these values, which ends with this fault, or finishes where it is null. */
function sourceWords(values, fault) {
  return [...(fault === null ? ["of"] : ["fail", fault]), ...(values.length > 0 ? [values.join(",")] : [])];
}

/** A value of a row, or a pending answer of a source, which has none. It came of others, its `parents`, or of a row's end. */
class Marble {
  constructor(value, parents, place) {
    Object.assign(this, { value, parents, place, column: undefined });
  }
}

/** The end of a row: it finishes where the fault is null. */
class RowEnd {
  constructor(fault) {
    Object.assign(this, { fault, column: undefined });
  }
}

/** A row of a pipe: marbles and an end, and in a source which part of the line it is. */
class PipeRow {
  constructor(marbles, fault, part) {
    Object.assign(this, { marbles, end: new RowEnd(fault), part });
  }

  get values() {
    return this.marbles.filter(({ value }) => value !== null);
  }

  get words() {
    return this.values.map(({ value }) => value);
  }
}

/** The row of a source, with its pending answers. Each marble knows its place in the list that is written. */
function sourceRow(words, { values, fault }, part) {
  const isListed = words[0] !== "range";
  const list = isListed ? (words[words[0] === "fail" ? 2 : 1] ?? "") : "";
  const written = isListed ? list.split(",").filter((word) => word !== "") : values;
  let next = 0;
  const marbles = written.map((word, place) => new Marble(word === "p" ? null : values[next++], [], place));
  return new PipeRow(marbles, fault, part);
}

/** What is asked of a pipe at first: its front parts, and the second source of each stage that has one. */
function questionsOfPipe(parts) {
  const fronts = parts.map((_, index) => lineOfParts(parts.slice(0, index + 1)));
  const sides = parts.slice(1).filter(([name]) => TWO_SIDED.has(name)).map(([, ...source]) => lineOfParts([source]));
  return [...fronts, ...sides];
}

/** A pipe whose front parts are answered; nothing where a part has no values, or more than are drawn. */
function readPipe(parts, answers) {
  const told = answers.map(readPipeAnswer);
  if (told.includes(undefined) || told.some(({ values }) => values.length > MOST_ROW_VALUES)) return undefined;
  const sides = told.slice(parts.length);
  const rows = [sourceRow(parts[0], told[0], 0)];
  const stages = parts.slice(1).map((words, index) => {
    const { values, fault } = told[index + 1];
    const row = new PipeRow(values.map((value) => new Marble(value, [])), fault);
    const side = TWO_SIDED.has(words[0]) ? sourceRow(words.slice(1), sides.shift(), index + 1) : undefined;
    rows.push(row);
    return { words, input: rows[index], side, row };
  });
  return { parts, source: rows[0], stages };
}

/** The front parts of what goes into a stage, each as a line that is asked. */
function questionsOfStage({ words, input, side }) {
  const isCatch = words[0] === "catch";
  const cut = (values, count) => sourceWords(values.slice(0, count), isCatch ? null : CUT_FAULT);
  const counts = (values) => Array.from({ length: values.length + 1 }, (_, count) => count);
  const left = counts(input.words).map((count) => lineOfParts([cut(input.words, count), words]));
  if (!side) return left;
  const whole = sourceWords(input.words, input.end.fault);
  const right = counts(side.words).map((count) => lineOfParts([whole, [words[0], ...cut(side.words, count)]]));
  return [...left, ...right];
}

/** All that is asked of a pipe after that; nothing where a line would be too long. */
function questionsOfParents({ stages }) {
  const asked = stages.flatMap(questionsOfStage);
  return asked.some((line) => line.length > MOST_ASKED_BYTES) ? undefined : asked;
}

/** The answers to the front parts of one side: how many values come out of each, and the first that ends the row by itself. */
function readFronts(answers, row, cutFault) {
  const told = answers.map(readPipeAnswer);
  if (told.includes(undefined)) return undefined;
  const isFront = ({ values }) => values.every((value, index) => row.words[index] === value);
  const counts = told.map(({ values }) => values.length);
  if (!told.every((one) => one.values.length <= row.words.length && isFront(one))) return undefined;
  if (!counts.every((count, index) => index === 0 || counts[index - 1] <= count)) return undefined;
  return { counts, endedBy: told.findIndex(({ fault }) => fault !== cutFault) };
}

/** With how many values of a side a value that comes out was there first; -1 where it never was. */
function firstWith(fronts, index) {
  return fronts.counts.findIndex((count) => count > index);
}

/** Ties the values of each stage to what they came of; whether the answers agree with each other. */
function tieParents(pipe, answers) {
  let from = 0;
  return pipe.stages.every((stage) => {
    const left = answers.slice(from, (from += stage.input.words.length + 1));
    const right = stage.side && answers.slice(from, (from += stage.side.words.length + 1));
    return right ? tieTwoSides(stage, left, right) : tieOneSide(stage, left);
  });
}

function tieOneSide(stage, answers) {
  const { words, input, row } = stage;
  const fronts = readFronts(answers, row, words[0] === "catch" ? null : CUT_FAULT);
  if (!fronts || fronts.counts[0] > 0) return false;
  row.marbles.forEach((marble, index) => {
    const first = firstWith(fronts, index);
    marble.parents = [first < 0 ? input.end : input.values[first - 1]];
  });
  row.end.endedBy = fronts.endedBy < 0 ? input.end : input.values[fronts.endedBy - 1];
  return row.end.endedBy !== undefined;
}

function tieTwoSides(stage, leftAnswers, rightAnswers) {
  const { words, input, side, row } = stage;
  const [left, right] = [readFronts(leftAnswers, row, CUT_FAULT), readFronts(rightAnswers, row, CUT_FAULT)];
  if (!left || !right) return false;
  const parent = (fronts, values, index) => values.at(firstWith(fronts, index) - 1);
  const latest = (fronts, values, index) => (firstWith(fronts, index) < 0 ? values.at(-1) : parent(fronts, values, index));
  row.marbles.forEach((marble, index) => (marble.parents = [latest(left, input.values, index), latest(right, side.values, index)]));
  const reachesLeft = readPipeAnswer(leftAnswers.at(-1)).fault === CUT_FAULT;
  if (words[0] === "zip") row.end.endedBy = reachesLeft ? input.end : side.end;
  else if (row.end.fault !== null) row.end.endedBy = input.end.fault !== null && reachesLeft ? input.end : side.end;
  else row.end.endedBy = undefined;
  return row.marbles.every(({ parents }) => !parents.includes(undefined));
}
