// Shows the pipes of a script as marbles, and lets their sources be changed by hand: each change is one of the script's line.

/** So many pipes are drawn at once, around the line that is pointed at. */
const MOST_PIPES = 8;

class PipesView {
  /** A view in a section. It tells `onPoint` a turn that is pointed at, and `onWrite` a line, its new words and a group of edits. */
  constructor(section, ask, { onPoint, onWrite, onSave }) {
    Object.assign(this, { section, onPoint, onWrite, onSave, turns: [], first: 0, round: 0, figures: [], pointed: 0, drags: 0 });
    this.drawings = new PipeDrawings(ask);
    this.room = section.querySelector(".pipes");
    this.note = section.querySelector(".window");
    this.tools = new PipeTools(section.querySelector(".pipe-tools"), (change) => this.changeChosen(change));
    this.room.addEventListener("pointermove", (event) => this.drag?.follow(event));
    for (const end of ["pointerup", "pointercancel"]) this.room.addEventListener(end, (event) => this.endDrag(event));
  }

  /** Shows the pipes among these turns, once the runner has told of those that are new. */
  async show(turns) {
    this.turns = turns.filter(runsPipe);
    this.section.hidden = this.turns.length === 0;
    this.first = clamp(this.first, 0, Math.max(0, this.turns.length - MOST_PIPES));
    await this.showWindow();
  }

  async showWindow() {
    this.round += 1;
    const { round } = this;
    const shown = this.turns.slice(this.first, this.first + MOST_PIPES);
    this.drawings.forget();
    const unknown = shown.filter((turn) => !this.drawings.has(turn));
    this.section.setAttribute("aria-busy", String(unknown.length > 0));
    if (unknown.length > 0) await this.drawings.draw(unknown);
    if (round !== this.round) return;
    this.draw(shown);
    this.reveal(this.pointed);
    this.section.setAttribute("aria-busy", "false");
  }

  draw(turns) {
    const { length } = this.turns;
    this.note.textContent = length > turns.length ? `Pipes ${this.first + 1}–${this.first + turns.length} of ${length.toLocaleString("en")}: those around the line that is pointed at.` : "";
    for (const { figure } of this.figures.splice(turns.length)) figure.remove();
    while (this.figures.length < turns.length) this.figures.push(new PipeFigure(this));
    turns.forEach((turn, index) => this.figures[index].show(turn, this.drawings.of(turn)));
    this.keepChosen();
    this.drag?.goOn();
    this.mark(this.pointed);
  }

  // ---- Pointing ----

  /** Marks the pipe of a line, and brings it in sight. */
  point(line) {
    this.pointed = line;
    const index = this.turns.findIndex(({ number }) => number === line);
    if (index >= 0 && (index < this.first || index >= this.first + MOST_PIPES)) {
      this.first = clamp(index - Math.floor(MOST_PIPES / 2), 0, Math.max(0, this.turns.length - MOST_PIPES));
      this.showWindow();
    }
    this.mark(line);
    this.reveal(line);
  }

  mark(line) {
    for (const one of this.figures) one.figure.classList.toggle("pointed", one.turn.number === line);
  }

  /** Scrolls the pipes, and nothing else, until one is in sight. What the pointer is on stays where it is. */
  reveal(line) {
    const shown = this.figureOf(line);
    if (!shown || this.room.matches(":hover") || this.drag) return;
    const { offsetTop, offsetHeight } = shown.figure;
    const { scrollTop, clientHeight } = this.room;
    if (offsetTop < scrollTop) this.room.scrollTop = offsetTop;
    else if (offsetTop + offsetHeight > scrollTop + clientHeight) this.room.scrollTop = Math.min(offsetTop, offsetTop + offsetHeight - clientHeight);
  }

  figureOf(line) {
    return this.figures.find(({ turn }) => turn.number === line);
  }

  // ---- Changing ----

  /** Chooses what is changed by keys and buttons: a marble of a source, or its end. */
  choose(line, part, place, isFocused = true) {
    this.chosen = { line, part, place, isFocused };
    this.keepChosen();
  }

  leave() {
    this.chosen = undefined;
    for (const shown of this.figures) shown.markChosen(undefined);
    this.tools.show(undefined);
  }

  /** Marks what is chosen in the figures as they are now, and gives it the focus back. */
  keepChosen() {
    const { chosen } = this;
    for (const shown of this.figures) shown.markChosen(chosen?.line === shown.turn.number ? chosen : undefined);
    const source = chosen && this.sourceOf(chosen);
    if (!source) this.chosen = undefined;
    this.tools.show(this.chosen && { ...this.chosen, source });
  }

  sourceOf({ line, part }) {
    return this.figureOf(line)?.sourceOf(part);
  }

  /** Changes what is chosen: a function from its source and place to the source anew and the place that is chosen then. */
  changeChosen(change) {
    const { chosen } = this;
    const source = chosen && this.sourceOf(chosen);
    const changed = source && change(source, chosen.place);
    if (changed) this.write(chosen, ...changed);
  }

  /** Writes a source into its line. */
  write({ line, part, isFocused }, source, place, group) {
    const parts = this.figureOf(line).parts.map((words) => [...words]);
    parts[part] = part === 0 ? source.words : [parts[part][0], ...source.words];
    this.chosen = { line, part, place, isFocused };
    this.onWrite(line, lineOfParts(parts), group);
  }

  beginDrag(event, line, handle) {
    if (event.button !== 0) return;
    this.choose(line, handle.part, handle.place);
    this.drags += 1;
    this.drag = new PipeDrag(this, line, handle, event, `drag ${this.drags}`);
    this.room.setPointerCapture(event.pointerId);
  }

  endDrag(event) {
    const { drag } = this;
    if (!drag || drag.pointer !== event.pointerId) return;
    this.drag = undefined;
    drag.end(event.type === "pointercancel");
  }
}
