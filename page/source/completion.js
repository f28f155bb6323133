// The list of words that may be meant, beside the caret.

/** So many words are offered at once. */
const MOST_OFFERED = 8;

class Completion {
  /** A list in an editor. `find` gives the words that may stand behind others in a line. */
  constructor(list, editor, find) {
    Object.assign(this, { list, editor, field: editor.field, find, offered: [], chosen: 0, isMoved: false });
    this.field.addEventListener("input", ({ inputType }) => (TYPING.test(inputType) ? this.offer() : this.close()));
    // Before the keys of the editor: while the list is open some of them are the list's.
    this.field.addEventListener("keydown", (event) => this.pressKey(event), { capture: true });
    for (const left of ["blur", "pointerdown", "scroll"]) this.field.addEventListener(left, () => this.close());
    list.addEventListener("pointerdown", (event) => this.press(event));
  }

  /** Offers words for the one that the caret is behind. */
  offer() {
    const { selectionStart, selectionEnd, value } = this.field;
    const line = this.editor.lineOf(selectionStart);
    const before = value.slice(this.editor.lineStarts[line - 1], selectionStart);
    const isAtEnd = selectionStart === value.length || value[selectionStart] === "\n" || value[selectionStart] === " ";
    if (selectionStart !== selectionEnd || !isAtEnd || before.length > 400) return this.close();
    const begun = /[^ ]*$/.exec(before)[0];
    const words = wordsOf(before.slice(0, before.length - begun.length));
    if (begun === "" && words.length === 0) return this.close();
    const fitting = [...new Set(this.find(words, line))].filter((word) => word.startsWith(begun) && word !== begun);
    this.show(fitting.slice(0, MOST_OFFERED), { line, column: before.length - begun.length, begun });
  }

  show(offered, place) {
    Object.assign(this, { offered, place, chosen: 0, isMoved: false });
    this.list.hidden = offered.length === 0;
    if (this.list.hidden) return this.close();
    this.list.replaceChildren(...offered.map((word, index) => textElement("li", word, { role: "option", id: `offered-${index}` })));
    this.putBesideCaret(place);
    this.mark();
  }

  putBesideCaret({ line, column }) {
    const { lineHeight, padding } = this.editor;
    const { scrollTop, scrollLeft, clientHeight } = this.field;
    const top = padding + line * lineHeight - scrollTop;
    const isBelow = top + this.list.offsetHeight <= clientHeight || top < clientHeight / 2;
    this.list.style.left = `calc(0.5rem + ${column}ch - ${scrollLeft}px)`;
    this.list.style.top = `${isBelow ? top : top - lineHeight - this.list.offsetHeight}px`;
  }

  mark() {
    [...this.list.children].forEach((item, index) => item.setAttribute("aria-selected", String(index === this.chosen)));
    this.field.setAttribute("aria-activedescendant", `offered-${this.chosen}`);
    this.field.setAttribute("aria-expanded", "true");
  }

  close() {
    this.offered = [];
    this.list.hidden = true;
    this.field.removeAttribute("aria-activedescendant");
    this.field.setAttribute("aria-expanded", "false");
  }

  /** While words are offered, the arrows choose one, and Tab takes it; Enter too, once one was chosen. */
  pressKey(event) {
    if (this.offered.length === 0 || event.altKey || event.ctrlKey || event.metaKey) return;
    const step = { ArrowDown: 1, ArrowUp: -1 }[event.key];
    // Up leads to the line above, as ever, before one was chosen.
    if (step === -1 && !this.isMoved) return this.close();
    if (step) this.chosen = (this.chosen + step + this.offered.length) % this.offered.length;
    else if (event.key === "Escape") this.close();
    else if ((event.key === "Tab" && !event.shiftKey) || (event.key === "Enter" && this.isMoved)) this.take(this.offered[this.chosen]);
    else return;
    event.preventDefault();
    event.stopImmediatePropagation();
    if (!step) return;
    this.isMoved = true;
    this.mark();
  }

  press(event) {
    event.preventDefault();
    const item = event.target.closest("li");
    if (item) this.take(item.textContent);
  }

  take(word) {
    const { line, begun } = this.place;
    const caret = this.field.selectionStart;
    this.close();
    this.editor.insert(word, caret - begun.length, caret, line);
  }
}
