// Shows one picture: the names of its rows, which stay in sight, beside its columns, which scroll. The program's SVG brings
// its own style, so a picture stands in a shadow tree. Only what is in sight, and a little around it, is made.

/** A browser lays nothing out that is much longer. A longer picture is shown in parts. */
const MOST_PIXELS = 12000000;
const ZOOMS = [0.5, 0.65, 0.72, 0.8, 0.9, 1, 1.25, 1.5, 2, 3];
/** A picture that is fitted to its frame is never smaller, nor larger than it is drawn. */
const LEAST_FITTED = 0.65;
/** What the columns are to the style and to a screen reader. */
const COLUMNS_ARE = { class: "columns", role: "group", "aria-roledescription": "marble diagram" };

function clamp(number, least, most) {
  return Math.max(least, Math.min(number, most));
}

class PictureView {
  /**
   * A view in a figure. It tells `onPoint` the turn and the cell that are pointed at, `onChoose` a turn that is chosen, and
   * `onSight` when other columns come in sight.
   */
  constructor(figure, style, { onPoint, onChoose, onSight }) {
    Object.assign(this, { figure, onPoint, onChoose, onSight, zoom: 1, isFitted: true, typed: 0, marks: [], heads: [] });
    this.host = figure.querySelector(".picture");
    this.tip = new Tip(figure.querySelector(".tip"), figure);
    this.root = this.host.attachShadow({ mode: "open" });
    this.sheet = textElement("div", "", { class: "whole" });
    this.names = textElement("div", "", { class: "names", "aria-hidden": "true" });
    Object.assign(this, { namesDrawn: new KeptSvg(), drawn: new KeptSvg() });
    this.columns = this.drawn.svg;
    for (const [name, value] of Object.entries(COLUMNS_ARE)) this.columns.setAttribute(name, value);
    this.names.append(this.namesDrawn.svg);
    this.sheet.append(this.names, this.columns);
    this.style = document.createElement("style");
    this.root.append(this.style, textElement("style", style), this.sheet);
    this.root.addEventListener("keydown", (event) => this.pressKey(event));
    this.root.addEventListener("focusin", ({ target }) => this.focus(target));
    this.root.addEventListener("focusout", () => this.tip.hide());
    this.root.addEventListener("pointermove", (event) => hasMoved(event) && this.pointAt(event));
    this.host.addEventListener("pointerleave", () => this.tip.hide());
    this.root.addEventListener("click", (event) => this.chooseAt(event));
    this.host.addEventListener("scroll", () => this.measure());
    new ResizeObserver(() => this.measure()).observe(this.host);
    this.measure();
  }

  /** Shows a picture whose cells have been told. What was in sight stays. */
  show(picture, turns, shownTo = Infinity) {
    Object.assign(this, { picture, turns, marked: 0, aimed: undefined, part: 0, shownTo });
    this.layout = new PictureLayout(picture, picture.hosts);
    if (this.isFitted) this.zoom = this.fittedZoom;
    this.stop = this.shownMarks[0];
    if (this.style.textContent !== picture.style) this.style.textContent = picture.style;
    this.tip.hide();
    this.layOut();
  }

  /** The marks of the columns that are shown, in their order. */
  get shownMarks() {
    return this.picture.cells.filter(({ row, column }) => row > 0 && column <= this.shownTo);
  }

  /** Shows the columns up to one, and nothing of those behind. */
  showUpTo(column) {
    this.shownTo = column;
    if (!this.stop || this.stop.column > column) this.stop = this.shownMarks.at(-1);
    this.make(this.inSight(0.6));
  }

  // ---- What is in sight ----

  /** So many columns are laid out at once. */
  get columnsOfPart() {
    return Math.max(1, Math.floor(MOST_PIXELS / (this.layout.widest * this.zoom || 1)));
  }

  /** The first and the last column that are laid out. */
  get span() {
    const first = this.part * this.columnsOfPart + 1;
    return { first, last: Math.min(first + this.columnsOfPart - 1, this.picture.columnCount) };
  }

  /** Where a column begins in the part that is laid out, before it is enlarged. */
  placeOfColumn(column) {
    const { namesWidth, lefts } = this.layout;
    return namesWidth + lefts[column] - lefts[this.span.first];
  }

  /** Keeps how large the frame is, and how far it is scrolled: a browser that is asked lays the page out first. */
  measure() {
    const { clientWidth, clientHeight, scrollLeft, scrollTop } = this.host;
    const isOther = this.frame?.width !== clientWidth;
    this.frame = { width: clientWidth, height: clientHeight, left: scrollLeft, top: scrollTop };
    if (isOther && this.isFitted && this.picture && this.fittedZoom !== this.zoom) this.fit();
    else this.follow();
  }

  scrollTo(left, top) {
    const { frame } = this;
    const isElsewhere = (place, old) => Math.abs(place - old) >= 1;
    if (isElsewhere(left, frame.left)) this.host.scrollLeft = Math.ceil(left);
    if (isElsewhere(top, frame.top)) this.host.scrollTop = Math.ceil(top);
    if (isElsewhere(left, frame.left) || isElsewhere(top, frame.top)) this.measure();
  }

  /** How wide the part that is laid out is. Behind the last column the lines of rows go on a little. */
  get width() {
    const { picture, span } = this;
    if (picture.columnCount === 0) return picture.width;
    return this.placeOfColumn(span.last + 1) + (span.last === picture.columnCount ? BEHIND : 0);
  }

  layOut() {
    const { picture, zoom, size: old } = this;
    this.size = { width: this.width * zoom, height: picture.height * zoom };
    this.sheet.style.width = `${this.size.width}px`;
    this.sheet.style.height = `${this.size.height}px`;
    this.made = undefined;
    // The frame is as high as the picture, up to its most, and has a bar to scroll where it is less wide.
    const isLike = old && old.height === this.size.height && old.width > this.frame.width === this.size.width > this.frame.width;
    if (isLike) this.follow();
    else this.measure();
  }

  /** The columns and rows that are in sight, with so many times as many around them. */
  inSight(around) {
    const { frame, picture, layout, zoom, span } = this;
    const high = ROW_HEIGHT * zoom;
    const [from, sight] = [layout.lefts[span.first] + frame.left / zoom, frame.width / zoom - layout.namesWidth];
    const [above, rows] = [frame.top / high, frame.height / high];
    return {
      first: clamp(layout.columnAt(from - around * sight), span.first, span.last),
      last: clamp(layout.columnAt(from + (1 + around) * sight), span.first, span.last),
      top: clamp(Math.floor(above - around * rows), 0, picture.rowCount - 1),
      bottom: clamp(Math.floor(above + (1 + around) * rows), 0, picture.rowCount - 1),
    };
  }

  /** Makes what came in sight. */
  follow() {
    if (!this.picture) return;
    const { made } = this;
    const seen = this.inSight(0);
    const isMade = made && made.first <= seen.first && made.last >= seen.last && made.top <= seen.top && made.bottom >= seen.bottom;
    if (!isMade) this.make(this.inSight(0.6));
    this.tip.hideUnlessNear();
    this.onSight(this);
  }

  make(box) {
    const hadFocus = this.root.activeElement !== null;
    this.made = box;
    this.isMaking = true;
    this.drawNames();
    this.drawColumns();
    if (hadFocus) this.elementOf(this.stop)?.focus({ preventScroll: true });
    this.isMaking = false;
    this.drawMarked();
  }

  /** The names. Each mark's label begins with its row's name, so they need no reading here. */
  drawNames() {
    const { picture, layout, made, zoom } = this;
    const box = { left: 0, top: made.top * ROW_HEIGHT, width: layout.namesWidth, height: (made.bottom - made.top + 1) * ROW_HEIGHT };
    const names = picture.names.slice(made.top, made.bottom + 1).filter(Boolean);
    const svg = this.namesDrawn.show(box, zoom, names.map((name) => new Part(name.row, `<g>${name.markup}${hostMarkup(name, picture.hosts)}</g>`)));
    svg.style.top = `${box.top * zoom}px`;
    this.names.style.width = `${box.width * zoom}px`;
    this.names.style.height = `${picture.height * zoom}px`;
  }

  drawColumns() {
    const { picture, layout, made, zoom } = this;
    const left = layout.lefts[made.first];
    const end = made.last === picture.columnCount ? layout.width : layout.lefts[made.last + 1];
    this.box = { left, top: made.top * ROW_HEIGHT, width: end - left, height: (made.bottom - made.top + 1) * ROW_HEIGHT };
    const cells = this.cellsToMake().map((cell) => ({ cell, part: layout.groupOf(cell.row === 0 ? "heading" : "mark", cell) }));
    const [heads, marks] = [cells.filter(({ cell }) => cell.row === 0), cells.filter(({ cell }) => cell.row > 0)];
    const band = new Part("band", '<rect class="band" y="0" width="0" height="100%" display="none"/>');
    const svg = this.drawn.show(this.box, zoom, [band, ...this.ways(), ...this.cover(end), ...[...heads, ...marks].map(({ part }) => part)]);
    const drawn = ({ cell, part }) => ({ element: this.drawn.elementOf(part), cell });
    Object.assign(this, { heads: heads.map(drawn), marks: marks.map(drawn) });
    this.nameColumns();
    svg.style.left = `${this.placeOfColumn(made.first) * zoom}px`;
    svg.style.top = `${this.box.top * zoom}px`;
  }

  /** The cells that are made; the one that the tab key leads to is, wherever it stands. */
  cellsToMake() {
    const { picture, made, stop } = this;
    const isMade = ({ row, column }) => row >= made.top && row <= made.bottom && column >= made.first && column <= made.last;
    const cells = picture.columns.slice(made.first, made.last + 1).flat().filter((cell) => isMade(cell) && cell.column <= this.shownTo);
    return stop && !isMade(stop) ? [...cells, stop] : cells;
  }

  /** What hides the columns that aren't shown. */
  cover(end) {
    const { lefts } = this.layout;
    const from = this.shownTo < this.picture.columnCount ? lefts[this.shownTo + 1] : end;
    return from < end ? [new Part("cover", '<rect class="sheet" y="0" height="100%"/>', { x: from, width: end - from })] : [];
  }

  /** The lines under the marks that are made. */
  ways() {
    const { picture, layout, made } = this;
    const ways = picture.guides.slice(made.first - 1, made.last).map((markup, index) => layout.wayOf(made.first + index, new Shape(markup)));
    const [from, to] = [leftAsDrawn(picture, made.first), leftAsDrawn(picture, made.last + 1)];
    const end = made.last === picture.columnCount ? picture.width : to;
    for (let row = made.top; row <= made.bottom; row++) {
      ways.push(...waysBetween(picture, row, from, end).map((way, index) => layout.wayOf(`${row} ${index}`, way)));
    }
    return ways;
  }

  /** One mark of all is in the order of the tab key; the arrow keys lead to the others. */
  nameColumns() {
    const { picture, columns } = this;
    setAttribute(columns, "aria-label", `${picture.title}. ${picture.about}`);
    for (const { element, cell } of this.marks) {
      setAttribute(element, "role", "img");
      setAttribute(element, "tabindex", cell === this.stop ? "0" : "-1");
      setAttribute(element, "aria-label", `Line ${cell.line}: ${sentenceOf(cell)}`);
    }
    for (const { element } of this.heads) setAttribute(element, "aria-hidden", "true");
  }

  /** Makes a cell anew of which more is known. */
  remake(cell) {
    if (this.elementOf(cell)) this.make(this.made);
  }

  elementOf(cell) {
    return this.marks.find((mark) => mark.cell === cell)?.element;
  }

  // ---- Pointing ----

  /** What is at a place of the window: a turn, and a cell where a mark is there. */
  placeOf({ clientX, clientY }) {
    const frame = this.columns.getBoundingClientRect();
    const column = this.layout.columnAt((clientX - frame.left) / this.zoom + this.box.left);
    const row = rowAt((clientY - frame.top) / this.zoom + this.box.top);
    return { turn: this.turns[column - 1], cell: row > 0 ? cellAt(this.picture, column, row) : undefined };
  }

  /** Where a cell stands in the window. */
  frameOf({ column, row }) {
    const frame = this.columns.getBoundingClientRect();
    const left = frame.left + (this.layout.lefts[column] - this.box.left) * this.zoom;
    const top = frame.top + (row * ROW_HEIGHT - this.box.top) * this.zoom;
    return { left, top, right: left + this.layout.widthOf(column) * this.zoom, bottom: top + ROW_HEIGHT * this.zoom };
  }

  /** What the pointer is on is in sight, and stays where it is. */
  pointAt(event) {
    if (event.target.closest(".names") || !this.made) return this.tip.hide();
    const { turn, cell } = this.placeOf(event);
    if (!turn || turn.column > this.shownTo) return this.tip.hide();
    this.isStill = true;
    this.onPoint(turn, cell);
    this.isStill = false;
    // With a mouse the sentence below the picture is enough: beside the mark it would cover others of the same emission.
    if (cell && event.pointerType !== "mouse") this.showTip(cell);
    else this.tip.hide();
  }

  showTip(cell) {
    this.tip.show(`Line ${cell.line}: ${sentenceOf(cell)}`, () => this.frameOf(cell));
  }

  /** A finger only points: the script's field would bring up a keyboard. */
  chooseAt(event) {
    if (event.target.closest(".names")) return;
    const { turn, cell } = this.placeOf(event);
    if (!turn || turn.column > this.shownTo) return;
    if (event.pointerType !== "touch") return this.onChoose(turn);
    this.onPoint(turn, cell);
    if (cell) this.showTip(cell);
  }

  /** Lets the tab key lead to this cell of all. */
  setStop(cell) {
    this.elementOf(this.stop)?.setAttribute("tabindex", "-1");
    this.stop = cell;
    this.elementOf(cell)?.setAttribute("tabindex", "0");
  }

  focus(target) {
    const mark = this.marks.find(({ element }) => element === target.closest(".mark"));
    if (!mark || this.isMaking) return;
    this.setStop(mark.cell);
    this.onPoint(mark.cell.turn, mark.cell);
    this.showTip(mark.cell);
  }

  pressKey(event) {
    if (!this.stop || event.altKey || event.ctrlKey || event.metaKey) return;
    if (event.key === "Escape") return this.tip.hide();
    const next = this.cellAfter(this.stop, event.key);
    if (event.key === "Enter") this.onChoose(this.stop.turn);
    else if (next) this.goTo(next);
    else return;
    event.preventDefault();
  }

  /** Leads the focus to a cell, once it is made. */
  goTo(cell) {
    this.reveal(cell.column, cell.row);
    this.setStop(cell);
    if (!this.elementOf(cell)) this.make(this.inSight(0.6));
    this.elementOf(cell)?.focus({ preventScroll: true });
  }

  /** Which cell a key leads to: left and right in the order of the lines, up and down to the nearest of the next row. */
  cellAfter(cell, key) {
    const marks = this.shownMarks;
    if (key === "ArrowRight") return marks[marks.indexOf(cell) + 1] ?? cell;
    if (key === "ArrowLeft") return marks[marks.indexOf(cell) - 1] ?? cell;
    if (key === "Home") return marks[0];
    if (key === "End") return marks.at(-1);
    if (key === "ArrowDown") return this.cellOnRow(cell, 1);
    if (key === "ArrowUp") return this.cellOnRow(cell, -1);
    if (key === "PageDown") return this.cellAway(cell, 1);
    if (key === "PageUp") return this.cellAway(cell, -1);
    return undefined;
  }

  cellOnRow(cell, step) {
    const distance = (other) => (other.row - cell.row) * step * 1e9 + Math.abs(other.column - cell.column);
    const beyond = this.shownMarks.filter((other) => (other.row - cell.row) * step > 0);
    return beyond.reduce((best, other) => (distance(other) < distance(best) ? other : best), beyond[0] ?? cell);
  }

  /** The cell that stands as many columns away as are in sight. */
  cellAway(cell, step) {
    const { first, last } = this.inSight(0);
    const column = cell.column + step * Math.max(1, last - first);
    const marks = this.shownMarks;
    return step > 0 ? marks.find((one) => one.column >= column) ?? marks.at(-1) : marks.findLast((one) => one.column <= column) ?? marks[0];
  }

  /** Marks a column, the cell that is pointed at, and every mark of its emissions. The tab key leads to the column. */
  mark(column, aimed) {
    Object.assign(this, { marked: column, aimed });
    const first = column <= this.shownTo ? this.picture?.columns[column]?.find(({ row }) => row > 0) : undefined;
    if (first && !this.root.activeElement && this.stop?.column !== column) this.setStop(first);
    if (column > 0 && !this.isStill) this.reveal(column, aimed?.row);
    if (!this.root.activeElement && aimed === undefined && !this.isStill) this.tip.hide();
    this.drawMarked();
  }

  /** The number of a bad line that is still being typed isn't crossed out. */
  markTyped(line) {
    this.typed = line;
    this.drawMarked();
  }

  drawMarked() {
    if (!this.made) return;
    const { layout, marked, aimed } = this;
    const aimedAt = aimed ? emissionsOf(aimed) : [];
    const band = this.columns.querySelector(".band");
    if (marked > 0) {
      band.setAttribute("x", layout.lefts[marked]);
      band.setAttribute("width", layout.widthOf(marked));
    }
    band.setAttribute("display", marked > 0 ? "inline" : "none");
    for (const { element, cell } of this.heads) element.classList.toggle("typed", cell.line === this.typed);
    for (const { element, cell } of this.marks) {
      element.classList.toggle("pointed", cell.column === marked);
      element.classList.toggle("aimed", cell === aimed);
      markSame(element, cell, cell === aimed ? [] : aimedAt);
    }
  }

  // ---- Scrolling and zooming ----

  /** Scrolls the picture, and nothing else, until a column is in sight, and a row, if one is wished or none of the column is. */
  reveal(column, wished) {
    const part = Math.floor((column - 1) / this.columnsOfPart);
    if (part !== this.part) this.showPart(part);
    const { frame, zoom, layout } = this;
    const from = (this.placeOfColumn(column) - layout.namesWidth) * zoom;
    const inSight = frame.width - layout.namesWidth * zoom;
    const row = wished ?? this.hiddenRow(column);
    const above = row === undefined ? frame.top : clamp(frame.top, (row + 1) * ROW_HEIGHT * zoom - frame.height, row * ROW_HEIGHT * zoom);
    this.scrollTo(clamp(frame.left, from + layout.widthOf(column) * zoom - inSight, from), above);
  }

  /** The first row on which a column has a mark, where none of its marks is in sight. */
  hiddenRow(column) {
    const { top, bottom } = this.inSight(0);
    const marks = this.picture.columns[column]?.filter(({ row }) => row > 0) ?? [];
    return marks.some(({ row }) => row >= top && row <= bottom) ? undefined : marks[0]?.row;
  }

  /** Whether there is nothing behind what is in sight. */
  get isAtEnd() {
    const { frame, picture, zoom, span } = this;
    return span.last === picture.columnCount && frame.left + frame.width >= this.placeOfColumn(picture.columnCount + 1) * zoom - 1;
  }

  showPart(part) {
    this.part = part;
    this.layOut();
  }

  /** Scrolls by what is in sight, to earlier or later columns. */
  scrollBy(step) {
    const { frame, layout, zoom, span } = this;
    const [from, sight] = [layout.lefts[span.first] + frame.left / zoom, frame.width / zoom - layout.namesWidth];
    const column = layout.columnAt(step < 0 ? from - sight - layout.widest : from + 2 * sight);
    this.reveal(clamp(column, 1, this.picture.columnCount));
  }

  /** How large the picture is where it fits into its frame, as far as it may be. */
  get fittedZoom() {
    const fits = (zoom) => zoom <= 1 && zoom >= LEAST_FITTED && this.layout.width * zoom <= this.frame.width;
    return ZOOMS.findLast(fits) ?? LEAST_FITTED;
  }

  fit() {
    this.isFitted = true;
    this.zoomTo(this.fittedZoom);
  }

  /** Zooms by so many steps; where none are named, as large as it is drawn, or fitted where it is that already. */
  zoomBy(steps) {
    if (steps === undefined && this.zoom === 1) return this.fit();
    this.isFitted = false;
    const at = steps === undefined ? ZOOMS.indexOf(1) : clamp(ZOOMS.indexOf(this.zoom) + steps, 0, ZOOMS.length - 1);
    this.zoomTo(ZOOMS[at]);
  }

  /** The marked column, or else the first in sight, stays in sight. */
  zoomTo(zoom) {
    const { first, last } = this.inSight(0);
    this.zoom = zoom;
    this.part = Math.floor((first - 1) / this.columnsOfPart);
    this.layOut();
    this.reveal(this.marked >= first && this.marked <= last ? this.marked : first);
  }
}

/** Which flow or state a row is of, under its name. */
function hostMarkup({ row, words }, hosts) {
  const host = hosts?.get(words);
  return host === undefined ? "" : `<text class="of" x="${NAMES_MARGIN}" y="${row * ROW_HEIGHT + 39}">of ${host}</text>`;
}

/** Marks what a cell shows of these emissions: of several marks, those that are theirs. */
function markSame(element, cell, emissions) {
  const shown = emissions.length > 0 ? emissionsOf(cell) : [];
  const isOneOf = (one) => one !== undefined && emissions.some(({ flow, emission }) => flow === one.flow && emission === one.emission);
  const parts = marksOf(cell).length > 1 ? [...element.children] : [element];
  parts.forEach((part, index) => part.classList.toggle("same", isOneOf(shown[index])));
}
