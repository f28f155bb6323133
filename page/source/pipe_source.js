// What can be done to the source of a pipe: each change gives the words of the source anew, and the place that is held after it.

/** The greatest number of a script. */
const MOST_NUMBER = (1n << 64n) - 1n;

/** A source as it is changed: its values as they are written, and its fault, null where it finishes. A range becomes a list. */
class Source {
  constructor(written, fault) {
    Object.assign(this, { written, fault });
  }

  /** The source that a row shows, whose line has these words. */
  static of(words, row) {
    const written = words[0] === "range" ? row.words : (words[words[0] === "fail" ? 2 : 1] ?? "").split(",").filter((word) => word !== "");
    return new Source(written, words[0] === "fail" ? words[1] : null);
  }

  get words() {
    return sourceWords(this.written, this.fault);
  }

  /** Whether a place is that of the end. */
  isEnd(place) {
    return place >= this.written.length;
  }

  moved(from, to) {
    const written = this.written.filter((_, place) => place !== from);
    written.splice(to, 0, this.written[from]);
    return new Source(written, this.fault);
  }

  inserted(place, word) {
    return new Source([...this.written.slice(0, place), word, ...this.written.slice(place)], this.fault);
  }

  without(place) {
    return new Source(this.written.filter((_, at) => at !== place), this.fault);
  }

  /** Another word in a place; of the end, another fault. */
  changed(place, word) {
    if (this.isEnd(place)) return new Source(this.written, word);
    return new Source(this.written.map((old, at) => (at === place ? word : old)), this.fault);
  }

  /** The first so many values, and the end behind them. */
  cutTo(count) {
    return new Source(this.written.slice(0, count), this.fault);
  }

  wordAt(place) {
    return this.isEnd(place) ? this.fault : this.written[place];
  }

  /** The value that is put into a place: one more than the one before it. */
  wordFor(place) {
    const before = this.written.slice(0, place).findLast((word) => word !== "p");
    return before === undefined ? "1" : String(BigInt(before) === MOST_NUMBER ? 0n : BigInt(before) + 1n);
  }
}

/** The number that is so much more; nothing where there is none. Of what is no number, 1. */
function numberBeside(word, step) {
  if (word === null || word === "p") return "1";
  const number = BigInt(word) + BigInt(step);
  return number < 0n || number > MOST_NUMBER ? undefined : String(number);
}
