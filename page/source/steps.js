// How much of a script is shown: all of it, or line by line, or only what the reader has guessed so far.

/** What a reader may write in place of an answer. */
function isSameAnswer(typed, answer) {
  const plain = (text) => text.trim().replace(/ +/g, " ").replace(/ ?, ?/g, ",").toLowerCase();
  const short = answer.replace(/^value |^line \d+: /, "");
  return [answer, short].some((one) => plain(typed) === plain(one));
}

class Steps {
  /** Tells `onChange` that more or less is shown. */
  constructor(onChange) {
    Object.assign(this, { onChange, turns: [], shownTo: Infinity, isGuessing: false, guesses: new Map() });
  }

  /** Takes the lines of another run. What was guessed of lines that are the same stays. */
  take(turns) {
    const kept = this.turns.findIndex(({ text }, index) => turns[index]?.text !== text);
    const same = kept < 0 ? this.turns.length : kept;
    this.turns = turns;
    for (const column of [...this.guesses.keys()]) if (column > same) this.guesses.delete(column);
    this.shownTo = this.isGuessing ? this.lastOpen(Math.min(this.shownTo, same)) : Infinity;
  }

  isShown({ column }) {
    return column <= this.shownTo;
  }

  /** The line that is to be guessed, or nothing. */
  get asked() {
    return this.isGuessing ? this.turns[this.shownTo] : undefined;
  }

  /** The last column that is open from here on: one that is answered by ok isn't worth a guess. */
  lastOpen(column) {
    let last = Math.max(0, Math.min(column, this.turns.length));
    while (this.turns[last]?.answer === "ok") last += 1;
    return last;
  }

  /** Shows one line more, or one less. After the last line all is shown again. */
  stepBy(step) {
    if (this.isGuessing || this.turns.length === 0) return;
    const from = this.shownTo === Infinity ? (step > 0 ? 0 : this.turns.length) : this.shownTo;
    const to = from + step;
    this.shownTo = to < 1 || to > this.turns.length ? Infinity : to;
    this.onChange();
  }

  setGuessing(isGuessing) {
    Object.assign(this, { isGuessing, guesses: new Map(), shownTo: isGuessing ? this.lastOpen(0) : Infinity });
    this.onChange();
  }

  guess(typed) {
    const { asked } = this;
    if (!asked || typed.trim() === "") return;
    this.guesses.set(asked.column, { typed: typed.trim(), isRight: isSameAnswer(typed, asked.answer ?? "none") });
    this.shownTo = this.lastOpen(this.shownTo + 1);
    this.onChange();
  }

  get score() {
    const all = [...this.guesses.values()];
    return `${all.filter(({ isRight }) => isRight).length} of ${plural(all.length, "guess is", "guesses are")} right`;
  }

  /** The answer to a line as the table shows it: with what was guessed, or hidden. */
  textOf(turn, answer) {
    if (!this.isShown(turn)) return this.isGuessing ? "?" : "";
    const guess = this.guesses.get(turn.column);
    if (!guess) return answer;
    return guess.isRight ? `✓ ${answer}` : `✗ ${answer} (not ${shortened(guess.typed)})`;
  }

  /** A field for the line that is to be guessed. */
  fieldFor(turn) {
    if (turn !== this.asked) return undefined;
    const form = document.createElement("form");
    const field = textElement("input", "", { type: "text", class: "guess", "aria-label": `What does line ${turn.number} answer?`, autocomplete: "off", autocapitalize: "off", spellcheck: "false" });
    form.append(field);
    form.addEventListener("submit", (event) => {
      event.preventDefault();
      this.guess(field.value);
    });
    return form;
  }
}
