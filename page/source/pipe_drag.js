// Dragging a marble of a source, or its end.

/** Pointers tremble so far without dragging. */
const TREMBLE = 4;
/** So far from its row a marble is taken away. */
const AWAY = 34;

/** A marble or an end that is being dragged. The line follows, and all of it is one step to undo. */
class PipeDrag {
  constructor(view, line, { part, place }, { pointerId, clientX, clientY }, group) {
    Object.assign(this, { view, line, part, place, pointer: pointerId, from: { clientX, clientY }, at: { clientX, clientY }, group });
    Object.assign(this, { hasMoved: false, isWaiting: false, isAway: false, count: undefined });
  }

  get shown() {
    return this.view.figureOf(this.line);
  }

  get row() {
    return this.shown?.rowOf(this.part);
  }

  get isOfEnd() {
    return this.place >= this.row.marbles.length;
  }

  follow({ pointerId, clientX, clientY }) {
    if (pointerId !== this.pointer) return;
    this.at = { clientX, clientY };
    if (Math.hypot(clientX - this.from.clientX, clientY - this.from.clientY) > TREMBLE) this.hasMoved = true;
    if (!this.hasMoved || this.isWaiting || !this.row) return;
    const { x, y } = this.shown.placeOf(this.at);
    if (this.isOfEnd) this.count = this.row.marbles.filter(({ column }) => column.x < x).length;
    else this.followMarble(x, y);
    this.show();
  }

  followMarble(x, y) {
    this.isAway = Math.abs(y - this.row.y) > AWAY;
    if (this.isAway) return;
    const to = this.row.marbles.filter(({ place, column }) => place !== this.place && column.x < x).length;
    if (to === this.place) return;
    this.isWaiting = true;
    this.write(this.shown.sourceOf(this.part).moved(this.place, to), to);
  }

  write(source, place) {
    this.place = place;
    this.view.write({ line: this.line, part: this.part, isFocused: true }, source, place, this.group);
  }

  /** Shows where it is dragged to. What would be taken away is pale. */
  show() {
    if (!this.hasMoved || !this.row) return;
    const { x, y } = this.shown.placeOf(this.at);
    const [handle, { column }] = [this.shown.handleAt(this), this.isOfEnd ? this.row.end : this.row.marbles[this.place]];
    handle.setAttribute("transform", `translate(${x - column.x} ${this.isOfEnd ? 0 : y - this.row.y})`);
    handle.classList.toggle("leaving", this.isAway);
    for (const { place } of this.isOfEnd ? this.row.marbles : []) {
      this.shown.handleAt({ part: this.part, place }).classList.toggle("leaving", place >= this.count);
    }
  }

  /** The picture was drawn anew. */
  goOn() {
    this.isWaiting = false;
    this.show();
  }

  /** Lets go. What was broken off leaves the line as it is by then. */
  end(isBrokenOff) {
    const source = this.shown?.sourceOf(this.part);
    if (!source || !this.hasMoved) return;
    for (const handle of this.shown.handles) {
      handle.removeAttribute("transform");
      handle.classList.remove("leaving");
    }
    if (isBrokenOff) return;
    if (this.isAway) this.write(source.without(this.place), this.place);
    else if (this.isOfEnd && this.count < source.written.length) this.write(source.cutTo(this.count), this.count);
  }
}
