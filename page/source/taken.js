// What a flow or a state behind a source took at a tick. The answer doesn't say it; it follows from what was there before the tick and
// after it, which the runner is asked on copies of the script. It isn't always all of it: who had no room lost some, or a cache did.

/** Of so many ticks of a script it is found. */
const MOST_TICKS = 60;
const MOST_TAKEN = 33;

/** Whether a list begins with another one. */
function beginsWith(list, front) {
  return front.length <= list.length && front.every((value, index) => value === list[index]);
}

/** What came to the end of a list, and whether that is all; nothing where it can't be told. */
function addedTo(before, after, isAll) {
  if (beginsWith(after, before)) return { values: after.slice(before.length), isAll };
  return after.length > 0 ? { values: after.slice(-1), isAll: false } : undefined;
}

/** What is there for one host after so many lines; nothing where the runner doesn't say it. */
async function listsOf(ask, front, column, host) {
  const questions = new Questions();
  const told = { cache: [], lists: host.parties.map(() => []) };
  if (host.kind === "state") questions.ask(`value ${host.name}`, (answer) => (told.cache = [answer.slice(6)]));
  else questions.ask(`cache ${host.name}`, (answer) => (told.cache = answer.match(/\d+/g) ?? []));
  host.parties.forEach((party, index) => {
    for (let count = 0; count < MOST_TAKEN + party.prelude; count++) {
      questions.ask(`next ${party.name}`, (answer) => answer.startsWith("value ") && told.lists[index].push(answer.slice(6)));
    }
  });
  const { output } = await ask(`${front}\n${questions.lines.join("\n")}`);
  if (!output) return undefined;
  questions.answer(linesOf(output).slice(column));
  return told;
}

/** What was taken between two looks at a host: { values, isAll }. */
function takenBetween(host, before, after) {
  if (host.kind === "state") return before.cache[0] === after.cache[0] ? { values: [], isAll: false } : { values: after.cache, isAll: false };
  const [list] = after.lists;
  if (list === undefined) return addedTo(before.cache, after.cache, after.cache.length < host.replay);
  const hadRoom = host.policy === "suspend" || list.length - host.parties[0].prelude < host.places;
  return addedTo(before.lists[0], list, hadRoom);
}

/** What is written under the mark of a tick. */
function wordsOfTaken({ values, isAll }) {
  if (values.length === 0) return isAll ? "none" : "";
  const words = `${isAll ? "" : "…"}${values.join(",")}`;
  return words.length <= 9 ? words : `${values.length} values`;
}

function sentenceOfTaken({ values, isAll }) {
  if (values.length === 0) return isAll ? "takes nothing" : "takes nothing that is seen";
  return isAll ? `takes ${values.join(", ")}` : `takes ${values.join(", ")} at last`;
}

/** Writes into a picture what was taken at a tick, below its mark; the cell of that mark, if it has one. */
function tellTaken(picture, { column }, taken) {
  const cell = picture.columns[column]?.find(({ elements }) => elements.some(({ tag }) => tag === "path"));
  if (!cell) return undefined;
  const more = `<text class="taken" x="0" y="${cell.row * ROW_HEIGHT + 41}">${wordsOfTaken(taken)}</text>`;
  return Object.assign(cell, { taken, sentence: undefined, more });
}

/** Finds what was taken at each tick of a script, one after another. Tells `onTaken` a turn of which it is known. */
class TakenFinder {
  constructor(ask, onTaken) {
    Object.assign(this, { ask, onTaken, round: 0, lines: [], known: new Map() });
  }

  /** Takes another script. What was taken before the first line that is another is known still. */
  take(script) {
    const lines = linesOf(script);
    const same = sameLines(lines, this.lines);
    for (const number of [...this.known.keys()]) if (number > same) this.known.delete(number);
    Object.assign(this, { lines, round: this.round + 1 });
  }

  /** Writes into a picture what is known. */
  tell(picture, turns) {
    for (const turn of this.known.size > 0 ? turns : []) if (this.known.has(turn.number)) tellTaken(picture, turn, this.known.get(turn.number));
  }

  /** Finds what isn't known yet. */
  async find(turns) {
    const { round } = this;
    const isTick = ({ words, answer }) => words[0] === "tick" && answer !== undefined && (answer === "on" || answer.startsWith("failed "));
    for (const turn of turns.filter(isTick).slice(0, MOST_TICKS)) {
      if (turn.number > MOST_ASKED_LINES) return;
      const taken = this.known.has(turn.number) ? undefined : await this.takenAt(turns, turn);
      if (round !== this.round) return;
      if (!taken) continue;
      this.known.set(turn.number, taken);
      this.onTaken(turn, taken);
    }
  }

  async takenAt(turns, turn) {
    const host = partiesAfter(turns.slice(0, turn.column)).hosts.find(({ name }) => name === turn.words[1]);
    if (!host) return undefined;
    const { ask, lines } = this;
    const look = (count, column) => listsOf(ask, lines.slice(0, count).join("\n"), column, host);
    const [before, after] = [await look(turn.number - 1, turn.column - 1), await look(turn.number, turn.column)];
    return before && after && takenBetween(host, before, after);
  }
}
