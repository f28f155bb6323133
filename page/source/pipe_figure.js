// One pipe on the page: its line, and its picture, of which the sources can be taken hold of.

const PIPE_STYLE = blockOfData("pipe-style");
const HELD_STYLE = blockOfData("pipe-held-style");

/** One pipe: its line, and its picture in a tree of its own. */
class PipeFigure {
  constructor(view) {
    this.view = view;
    this.figure = byId("pipe-figure").content.firstElementChild.cloneNode(true);
    view.room.append(this.figure);
    const find = (selector) => this.figure.querySelector(selector);
    Object.assign(this, { line: find(".line"), code: find("code"), why: find(".why"), host: find(".pipe-picture") });
    this.root = this.host.attachShadow({ mode: "open" });
    this.sheet = textElement("div", "", { class: "sheet" });
    this.root.append(textElement("style", `${PIPE_STYLE}\n${HELD_STYLE}`), this.sheet);
    this.root.addEventListener("pointerdown", (event) => this.press(event));
    this.root.addEventListener("click", (event) => this.click(event));
    this.root.addEventListener("keydown", (event) => pressPipeKey(event, this));
    this.root.addEventListener("focusin", ({ target }) => this.focus(target));
    this.figure.addEventListener("pointermove", (event) => hasMoved(event) && !view.drag && view.onPoint(this.turn));
    this.line.addEventListener("click", () => view.onPoint(this.turn, true));
    find(".save").addEventListener("click", () => view.onSave(this, false));
    find(".save-png").addEventListener("click", () => view.onSave(this, true));
  }

  /** Shows a turn by its drawing, or by a sentence that says why there is none. */
  show(turn, shown) {
    const isSame = this.shown === shown && this.turn?.number === turn.number && this.turn?.text === turn.text;
    Object.assign(this, { turn, shown });
    if (isSame) return;
    const isDrawn = typeof shown !== "string";
    Object.assign(this, { drawing: isDrawn ? shown : undefined, parts: partsOf(turn.words) });
    this.line.textContent = `Line ${turn.number}`;
    this.code.textContent = turn.text;
    this.why.textContent = isDrawn ? "" : shown;
    this.host.hidden = !isDrawn;
    this.figure.querySelector(".tools").hidden = !isDrawn;
    const markup = isDrawn ? pipeSvg(shown, `Line ${turn.number} as marbles`, true) : "";
    if (markup === this.markup) return;
    this.hadFocus = this.root.activeElement !== null;
    this.markup = markup;
    this.redraw(markup);
    this.handles = [...(this.svg?.querySelectorAll(".held") ?? [])];
    this.handles[0]?.setAttribute("tabindex", "0");
  }

  redraw(markup) {
    this.svg?.remove();
    this.sheet.insertAdjacentHTML("afterbegin", markup);
    this.drawGrips();
  }

  /**
   * What a pointer takes hold of lies over the marbles: within a picture a browser lets a finger scroll, whatever its style says. What
   * is held stays, unseen, until it is let go: a browser breaks a drag off that lost its target.
   */
  drawGrips() {
    const isHeld = this.view.drag !== undefined;
    for (const old of this.sheet.querySelectorAll(".grip")) {
      if (isHeld) old.classList.add("gone");
      else old.remove();
    }
    for (const row of this.drawing?.rows ?? []) if (row.part !== undefined) this.drawGripsOf(row);
  }

  drawGripsOf(row) {
    const all = [...row.marbles.map((marble) => [marble.column, marble.place, marbleWidth(marble)]), [row.end.column, row.marbles.length, 20]];
    for (const [{ x }, place, width] of all) {
      const wide = Math.max(width, 24);
      const grip = textElement("div", "", { class: "grip", "data-part": row.part, "data-place": place });
      Object.assign(grip.style, { left: `${x - wide / 2}px`, top: `${row.y - 15}px`, width: `${wide}px` });
      this.sheet.append(grip);
    }
  }

  get svg() {
    return this.sheet.querySelector("svg");
  }

  rowOf(part) {
    return this.drawing?.rows.find((row) => row.part === part);
  }

  sourceOf(part) {
    const row = this.rowOf(part);
    return row && Source.of(part === 0 ? this.parts[0] : this.parts[part].slice(1), row);
  }

  handleAt({ part, place }) {
    return this.handles?.find(({ dataset }) => Number(dataset.part) === part && Number(dataset.place) === place);
  }

  markChosen(chosen) {
    const found = chosen && this.handleAt(chosen);
    this.handles?.forEach((handle) => handle.classList.toggle("chosen", handle === found));
    if (!found) return;
    for (const handle of this.handles) handle.setAttribute("tabindex", handle === found ? "0" : "-1");
    if (chosen.isFocused && (this.hadFocus || document.activeElement === document.body)) found.focus({ preventScroll: true });
    this.hadFocus = false;
  }

  /** Where on the picture a pointer is. */
  placeOf({ clientX, clientY }) {
    const { left, top } = this.svg.getBoundingClientRect();
    return { x: clientX - left, y: clientY - top };
  }

  press(event) {
    const grip = event.target.closest(".grip");
    if (!grip) return;
    event.preventDefault();
    const place = { part: Number(grip.dataset.part), place: Number(grip.dataset.place) };
    this.handleAt(place).focus({ preventScroll: true });
    this.view.beginDrag(event, this.turn.number, place);
  }

  /** On a source's row, beside its marbles: a value is put there. */
  click(event) {
    const lane = event.target.closest(".lane");
    if (!lane) return;
    const part = Number(lane.dataset.part);
    const { x } = this.placeOf(event);
    const place = this.rowOf(part).marbles.filter(({ column }) => column.x < x).length;
    const source = this.sourceOf(part);
    this.hadFocus = true;
    this.view.write({ line: this.turn.number, part, isFocused: true }, source.inserted(place, source.wordFor(place)), place);
  }

  focus(target) {
    const { part, place } = target.closest(".held")?.dataset ?? {};
    if (part !== undefined && !this.view.drag) this.view.choose(this.turn.number, Number(part), Number(place));
    this.view.onPoint(this.turn);
  }
}
