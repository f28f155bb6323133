// The script: a plain text field, with the numbers of its lines beside it and marked lines behind it.

/** What typing does to a text, of all that may change it. */
const TYPING = /^(insertText|insertCompositionText|deleteContent\w+)$/;

class Editor {
  /**
   * Tells `onInput` a change, `onPoint` the number of a line that the pointer or the caret is on, `onTyped` that the line that is
   * being typed is another, `onRefuse` why a text isn't put in, and `onKotlin` which lines were put in for Kotlin's.
   */
  constructor(field, gutter, backdrop, { onInput, onPoint, onTyped, onRefuse, onKotlin }) {
    Object.assign(this, { field, gutter, backdrop, onInput, onPoint, onTyped, onRefuse, onKotlin });
    this.bad = new Set();
    this.pointed = 0;
    /** The line that is being typed: it was edited, and the caret is in it. 0 where there is none. */
    this.typed = 0;
    this.lineStarts = [0];
    this.edits = new Edits(field.value);
    field.addEventListener("input", (event) => this.change(event));
    field.addEventListener("beforeinput", (event) => this.undoByMenu(event));
    field.addEventListener("beforeinput", (event) => this.refuseLong(event));
    field.addEventListener("beforeinput", (event) => this.translate(event));
    field.addEventListener("scroll", () => this.draw());
    field.addEventListener("keydown", (event) => this.pressKey(event));
    field.addEventListener("blur", () => this.setTyped(0));
    for (const part of [field, gutter]) part.addEventListener("pointermove", (event) => hasMoved(event) && this.pointAt(event));
    document.addEventListener("selectionchange", () => this.followCaret());
    new ResizeObserver(() => this.measure()).observe(field);
    this.measure();
  }

  get script() {
    return this.field.value;
  }

  set script(script) {
    this.field.value = script;
    this.edits.clear(script);
    this.showFront();
  }

  /** Puts another script in place of this one, by an edit that can be undone. The focus stays where it is. */
  replace(script) {
    this.field.value = script;
    this.edits.note(script);
    this.showFront();
  }

  /** Puts other words in place of a line, by an edit that can be undone. Edits of the same group are undone as one. */
  writeLine(line, words, group) {
    const from = this.lineStarts[line - 1];
    const end = (this.lineStarts[line] ?? this.script.length + 1) - 1;
    this.field.setRangeText(words, from, end, "preserve");
    this.edits.note(this.script, group);
    this.readLines();
    this.setTyped(0);
    this.onInput();
  }

  /** Puts a word in place of what stands between two places of a line that is being typed. */
  insert(word, from, end, line) {
    this.field.setRangeText(word, from, end, "end");
    this.edits.note(this.script);
    this.readLines();
    this.setTyped(line);
    this.onInput();
  }

  /** Undoes or redoes the last step, also where the focus is elsewhere. */
  undo(isRedo) {
    const found = isRedo ? this.edits.redo() : this.edits.undo();
    if (!found) return;
    this.field.value = found.text;
    this.readLines();
    this.setTyped(0);
    this.field.setSelectionRange(found.caret, found.caret);
    if (document.activeElement === this.field) this.reveal(this.lineOf(found.caret));
    this.onInput();
  }

  /** A text with which the script would have too many lines isn't put in. */
  refuseLong(event) {
    const why = tooManyLines(this.lineStarts.length + (event.data ?? "").split("\n").length - 1);
    if (!why || !event.data?.includes("\n")) return;
    event.preventDefault();
    this.onRefuse(why);
  }

  /** Constructors of Kotlin become lines of the script. */
  translate(event) {
    const lines = event.defaultPrevented || !event.data ? undefined : scriptOfKotlin(event.data);
    if (!lines) return;
    event.preventDefault();
    const { selectionStart, selectionEnd } = this.field;
    this.field.setRangeText(event.data.endsWith("\n") ? `${lines}\n` : lines, selectionStart, selectionEnd, "end");
    this.edits.note(this.script);
    this.readLines();
    this.onInput();
    this.onKotlin(lines);
  }

  /** By a menu, or by shaking a telephone. */
  undoByMenu(event) {
    if (event.inputType !== "historyUndo" && event.inputType !== "historyRedo") return;
    event.preventDefault();
    this.undo(event.inputType === "historyRedo");
  }

  showFront() {
    this.field.scrollTop = 0;
    this.field.setSelectionRange(0, 0);
    this.readLines();
    this.setTyped(0);
  }

  readLines() {
    this.lineStarts = [0];
    const { value } = this.field;
    for (let at = value.indexOf("\n"); at >= 0; at = value.indexOf("\n", at + 1)) this.lineStarts.push(at + 1);
    this.draw();
  }

  change({ inputType }) {
    this.readLines();
    const isTyping = document.activeElement === this.field && TYPING.test(inputType);
    this.edits.note(this.script, isTyping ? TYPED : undefined);
    this.setTyped(isTyping ? this.lineOf(this.field.selectionStart) : 0);
    this.onInput();
  }

  setTyped(line) {
    if (line === this.typed) return;
    this.typed = line;
    this.onTyped(line);
    this.draw();
  }

  /** The number of the line in which a character stands. */
  lineOf(character) {
    let low = 0;
    let high = this.lineStarts.length;
    while (high - low > 1) {
      const middle = Math.floor((low + high) / 2);
      if (this.lineStarts[middle] <= character) low = middle;
      else high = middle;
    }
    return low + 1;
  }

  measure() {
    const style = getComputedStyle(this.field);
    Object.assign(this, { lineHeight: parseFloat(style.lineHeight), padding: parseFloat(style.paddingTop) });
    this.draw();
  }

  pointAt({ clientY }) {
    const y = clientY - this.field.getBoundingClientRect().top - this.padding + this.field.scrollTop;
    const line = Math.floor(y / this.lineHeight) + 1;
    if (line >= 1 && line <= this.lineStarts.length) this.onPoint(line);
  }

  followCaret() {
    if (document.activeElement !== this.field) return;
    const line = this.lineOf(this.field.selectionStart);
    if (line !== this.typed) this.setTyped(0);
    this.onPoint(line);
  }

  /** Alt with an arrow moves the caret's line up or down: its command comes earlier or later. */
  pressKey(event) {
    if (!event.altKey || (event.key !== "ArrowUp" && event.key !== "ArrowDown")) return;
    event.preventDefault();
    const line = this.lineOf(this.field.selectionStart);
    const upper = event.key === "ArrowUp" ? line - 1 : line;
    if (upper < 1 || upper >= this.lineStarts.length) return;
    this.swapLines(upper, line === upper);
  }

  /** Swaps a line and the next one, by an edit that can be undone, and follows the one that the caret was on. */
  swapLines(upper, followsDown) {
    const { value, selectionStart } = this.field;
    const [from, middle] = [this.lineStarts[upper - 1], this.lineStarts[upper]];
    const end = this.lineStarts[upper + 1] ?? value.length + 1;
    const [first, second] = [value.slice(from, middle - 1), value.slice(middle, end - 1)];
    const inLine = selectionStart - (followsDown ? from : middle);
    this.field.setRangeText(`${second}\n${first}`, from, end - 1);
    this.edits.note(this.script);
    const caret = (followsDown ? from + second.length + 1 : from) + inLine;
    this.field.setSelectionRange(caret, caret);
    this.readLines();
    this.setTyped(0);
    this.onInput();
  }

  /** Puts the caret on a line. */
  goTo(line) {
    const start = this.lineStarts[line - 1];
    this.field.focus({ preventScroll: true });
    this.field.setSelectionRange(start, start);
    this.reveal(line);
    this.field.scrollIntoView({ block: "nearest" });
  }

  /** Scrolls the field, and nothing else, until a line is in sight. */
  reveal(line) {
    const top = this.padding + (line - 1) * this.lineHeight;
    const { scrollTop, clientHeight } = this.field;
    if (top < scrollTop) this.field.scrollTop = top - this.padding;
    else if (top + this.lineHeight > scrollTop + clientHeight) this.field.scrollTop = top + this.lineHeight - clientHeight;
  }

  mark(line) {
    if (line === this.pointed) return;
    this.pointed = line;
    if (line > 0 && document.activeElement !== this.field) this.reveal(line);
    this.draw();
  }

  markBad(lines) {
    this.bad = new Set(lines);
    this.draw();
  }

  /** Draws the numbers and the bands of the lines that are in sight. */
  draw() {
    const { lineHeight, padding } = this;
    const { scrollTop, clientHeight } = this.field;
    const first = Math.max(1, Math.floor((scrollTop - padding) / lineHeight) + 1);
    const last = Math.min(this.lineStarts.length, Math.ceil((scrollTop + clientHeight - padding) / lineHeight));
    const numbers = [];
    const bands = [];
    for (let line = first; line <= last; line++) {
      const top = padding + (line - 1) * lineHeight - scrollTop;
      const isBad = this.bad.has(line) && line !== this.typed;
      const looks = [isBad ? "bad" : "", line === this.pointed ? "pointed" : ""].join(" ").trim();
      numbers.push({ text: String(line), looks, top });
      if (looks) bands.push({ text: "", looks, top });
    }
    this.gutter.style.width = `${String(this.lineStarts.length).length + 3}ch`;
    putStrips(this.gutter, numbers);
    putStrips(this.backdrop, bands);
  }
}

/** Makes these strips the only ones in a room. What is drawn as it was stays. */
function putStrips(room, strips) {
  while (room.children.length > strips.length) room.lastChild.remove();
  strips.forEach(({ text, looks, top }, index) => {
    const strip = room.children[index] ?? room.appendChild(document.createElement("div"));
    setText(strip, text);
    setAttribute(strip, "class", looks);
    setAttribute(strip, "style", `top: ${top}px`);
  });
}
