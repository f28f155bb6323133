// The drawings of pipes, by their lines, as far as the runner was asked for them.

/** So many are kept as they were drawn. */
const MOST_KEPT_PIPES = 400;
const TOO_LONG_PIPE = `A row has more than ${MOST_ROW_VALUES} values, or its numbers are too long: it isn't drawn.`;
const TOO_SLOW_PIPE = "The program took too long to say how it is to be drawn.";
const CONTRADICTION = "What the runner said of its parts contradicts its answer, so nothing is drawn.";

function runsPipe({ words, answer }) {
  return words[0] === "cold" && answer !== undefined && !isBad(answer);
}

/** Asks the runner for pipes, and keeps what it drew of them by their lines. */
class PipeDrawings {
  constructor(ask) {
    Object.assign(this, { ask, kept: new Map() });
  }

  /** Forgets all, where much is kept. */
  forget() {
    if (this.kept.size > MOST_KEPT_PIPES) this.kept.clear();
  }

  has({ text }) {
    return this.kept.has(text);
  }

  /** What is shown of a line: a drawing, or a sentence that says why there is none. */
  of({ text }) {
    return this.kept.get(text);
  }

  /** Draws the pipes of these lines, by two runs for all of them. */
  async draw(turns) {
    const left = turns.filter((turn) => !this.refuse(turn));
    const parts = left.map(({ words }) => partsOf(words));
    const fronts = await this.answers(parts.map(questionsOfPipe));
    if (fronts.some((those, index) => those.length < parts[index].length)) return this.keep(left, TOO_SLOW_PIPE);
    const pipes = parts.map((those, index) => readPipe(those, fronts[index]));
    const asked = pipes.map((pipe) => (pipe ? questionsOfParents(pipe) : undefined));
    const answers = await this.answers(asked.map((lines) => lines ?? []));
    left.forEach((turn, index) => {
      const isTold = fronts[index][parts[index].length - 1] === turn.answer;
      const shown = asked[index] ? isTold && tieParents(pipes[index], answers[index]) && drawPipe(pipes[index]) : TOO_LONG_PIPE;
      this.kept.set(turn.text, shown || CONTRADICTION);
    });
  }

  keep(turns, sentence) {
    for (const { text } of turns) this.kept.set(text, sentence);
  }

  /** Keeps why nothing is drawn, where the answer says it; whether it does. */
  refuse({ text, answer }) {
    const told = readPipeAnswer(answer);
    if (!told) this.kept.set(text, answer === "too many" ? "Too many values: nothing is drawn." : `It was ${answer}, so nothing comes out.`);
    else if (told.values.length > MOST_ROW_VALUES) this.kept.set(text, TOO_LONG_PIPE);
    return this.has({ text });
  }

  /** The answers to lists of lines, of one run. */
  async answers(lists) {
    const lines = lists.flat();
    const said = lines.length > 0 ? linesOf((await this.ask(lines.join("\n"))).output ?? "") : [];
    let from = 0;
    return lists.map((list) => said.slice(from, (from += list.length)));
  }
}
