// Why a line is bad. A picture says it in the title of the line's number. It has one reason for all that can be wrong of a line's
// words, and one that was drawn by an earlier program has none; then the runner is asked on, by scripts of one or two lines.
//
// The reasons, and what stands after a keyword, are taken from the definitions that decide it (tools/build_page reads them).
// Whether a word is a number, a name or a policy, and what follows is a source, a script says which is good but for that. Whether a
// name stands for something, the lines before say with one more behind them, which makes something of that name.

/** A longer line is bad whatever it says. */
const MOST_LINE_BYTES = 1024;
/** So long after a run the reasons are asked for. */
const REASON_MILLISECONDS = 150;
const WANTED = { name: "NAME", number: "NUMBER", policy: "POLICY" };
/** What has to follow the words that come one by one. */
const FOLLOWS = { cold: "pipe", buffer: "source", share: "start with a source", stated: "start with a source", sub: "“with LIST”" };
/** What stands before the reason in the title of a bad line's number. The line before it has no such text: its `&` is written out. */
const BEFORE_REASON = "&#10;bad command: ";
/** A script that is good where the word is of its kind. */
const PROBES = {
  name: (word) => `state ${word} 0`,
  number: (word) => `state a ${word}`,
  policy: (word) => `shared a 1 1 ${word}`,
};

/** The reason in the title of a bad line's number, as a program wrote it; nothing where it has none. */
function reasonInTitle(title) {
  const at = title.lastIndexOf(BEFORE_REASON);
  return at < 0 ? undefined : title.slice(at + BEFORE_REASON.length);
}

class Reasons {
  /**
   * Knows what each command takes, and each reason of the program by its name, as a sentence. Asks by `isBad` whether the last line
   * of a script is bad, and tells `onReason` a line of which the reason is known.
   */
  constructor(forms, sentences, isBad, onReason) {
    Object.assign(this, { forms, sentences, isBad, onReason, lines: [], queue: [], round: 0, timer: 0, isAsking: false });
  }

  /** Takes the reasons of bad lines from their picture, where that has them. Of a line's words the page can say more. */
  takeFrom(picture, turns) {
    for (const { row, elements, column } of picture.cells) {
      const title = row === 0 ? elements.find(({ look }) => look === "head")?.title : undefined;
      const reason = title === undefined ? undefined : reasonInTitle(title);
      const turn = turns[column - 1];
      if (reason === undefined || !isBad(turn?.answer)) continue;
      if (reason === this.sentences.Words) turn.told = reason;
      else turn.reason = this.about(reason, turn.words);
    }
  }

  /** A reason of the program, with the word that it is about. */
  about(reason, words) {
    const [asked, made] = this.namesIn(words);
    const { NoCommand, Unbound, Bound, OtherKind } = this.sentences;
    const word = { [NoCommand]: words[0], [Unbound]: asked, [Bound]: made, [OtherKind]: asked }[reason];
    return word === undefined ? reason : `${reason} (“${foreign(word)}”)`;
  }

  formOf(first) {
    return Object.hasOwn(this.forms, first) ? this.forms[first] : undefined;
  }

  /** The name that the words of a command ask, if they ask one, and the one that they bind, if they bind one. */
  namesIn([first, ...rest]) {
    const form = this.formOf(first);
    const names = form ? form.words.flatMap((kind, index) => (kind === "name" ? [rest[index]] : [])) : [];
    return form?.makes ? [undefined, names[0]] : names;
  }

  /** Finds the reasons of these lines of a script that have none yet, one after another; those of another script are let go. */
  explain(script, turns) {
    this.round += 1;
    const queue = turns.filter(({ reason }) => reason === undefined);
    Object.assign(this, { lines: linesOf(script), queue, isAsking: false });
    clearTimeout(this.timer);
    this.timer = setTimeout(() => this.explainEach(this.round), REASON_MILLISECONDS);
  }

  /** Finds the reason of a line of the same script before those of others. */
  explainFirst(turn) {
    if (turn.reason !== undefined || this.queue[0] === turn) return;
    this.queue.unshift(turn);
    if (!this.isAsking) this.explainEach(this.round);
  }

  async explainEach(round) {
    this.isAsking = true;
    while (round === this.round && this.queue.length > 0) {
      const turn = this.queue.shift();
      const before = this.lines.slice(0, turn.number - 1).map((line) => `${line}\n`).join("");
      const reason = turn.reason ?? (await this.reasonOf(before, turn)) ?? "";
      if (round !== this.round) return;
      turn.reason = reason;
      this.onReason(turn);
    }
    this.isAsking = false;
  }

  /** The first thing that is wrong of a line, in the order in which it is read. */
  async reasonOf(before, { text, words, told }) {
    const form = this.formOf(words[0]);
    if (byteCount(text) > MOST_LINE_BYTES) return this.sentences.TooLong;
    if (!form) return this.about(this.sentences.NoCommand, words);
    return (await this.reasonInWords(form, words)) ?? told ?? this.reasonInNames(before, words);
  }

  async reasonInWords(form, [first, ...rest]) {
    const wanted = [first, ...form.words.map((kind) => WANTED[kind]), ...(form.goes_on ? ["…"] : [])].join(" ");
    for (const [index, kind] of form.words.entries()) {
      const word = rest[index];
      if (word === undefined) return `a word is missing: “${wanted}”`;
      if (await this.isBad(PROBES[kind](word))) return `“${foreign(word)}” is no ${kind}`;
    }
    const more = rest.slice(form.words.length);
    if (!form.goes_on) return more.length > 0 ? `“${foreign(more[0])}” is a word too many for “${wanted}”` : undefined;
    const isBad = await this.isBad(scriptWith(first, form, rest));
    return isBad ? `what follows “${wanted.slice(0, -2)}” is no ${FOLLOWS[first] ?? "end of the command"}` : undefined;
  }

  /** The words are those of a command, so a name stands in its way. */
  async reasonInNames(before, words) {
    const [asked, made] = this.namesIn(words);
    const { Unbound, Bound, OtherKind } = this.sentences;
    if (asked !== undefined && !(await this.isTaken(before, asked))) return this.about(Unbound, words);
    if (made !== undefined && (await this.isTaken(before, made))) return this.about(Bound, words);
    return asked === undefined ? undefined : this.about(OtherKind, words);
  }

  isTaken(before, name) {
    return this.isBad(`${before}${PROBES.name(name)}`);
  }
}

/** A script of this command's words and of names that stand in nobody's way. */
function scriptWith(first, form, rest) {
  const fresh = ["a", "b"];
  const words = rest.map((word, index) => (form.words[index] === "name" ? fresh.shift() : word));
  const host = form.words.length > 0 && !form.makes ? "shared a 1 1 suspend\n" : "";
  return `${host}${[first, ...words].join(" ")}`;
}

/** Whether the last line that a program answered is bad. */
function endsBad({ output }) {
  return isBad(linesOf(output).at(-1));
}
