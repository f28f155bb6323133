// The table of answers: each line beside what it was answered, and what the picture shows of it.

/** An element with this text, and these attributes. */
function textElement(tag, text, attributes = {}) {
  const element = document.createElement(tag);
  element.textContent = text;
  for (const [name, value] of Object.entries(attributes)) element.setAttribute(name, value);
  return element;
}

/** A sentence as parts of an element: its foreign words stand by themselves, whatever direction they have. */
function partsOfSentence(text) {
  return text.split(/(\u2068[^\u2069]*\u2069)/).map((part) => (part.startsWith(FOREIGN_BEGIN) ? textElement("bdi", part.slice(1, -1)) : part));
}

/** Writes a text into a cell of a table. A long one scrolls, so that the rows stay low. */
function tellIn(cell, text) {
  const parts = partsOfSentence(text);
  if (text.length <= MOST_TOLD_CHARACTERS) cell.replaceChildren(...parts);
  else {
    const long = textElement("div", "", { class: "long" });
    long.append(...parts);
    cell.replaceChildren(long);
  }
  return cell;
}

/** Writes a text into a cell that says something else. */
function tellOnce(cell, text) {
  if (cell.told === text) return;
  cell.told = text;
  tellIn(cell, text);
}

/** Words of a script, as they stand there. */
function codeElement(words) {
  const code = document.createElement("code");
  code.append(tellIn(document.createElement("bdi"), words));
  return code;
}

let lastPlace = "";

/** Whether the pointer moved, and not what is under it: a view that scrolls by itself isn't pointed at. */
function hasMoved({ screenX, screenY }) {
  const place = `${screenX} ${screenY}`;
  const isElsewhere = place !== lastPlace;
  lastPlace = place;
  return isElsewhere;
}

/** So many rows are made at once, where there are more of them. */
const ROWS_AT_ONCE = 60;
/** Up to so many are all made. */
const MOST_ROWS_WHOLE = 120;
/** A row is about so high before one was measured, and all rows together are laid out no higher than the most. */
const ROW_PIXELS = 32;
const MOST_TABLE_PIXELS = 12000000;

class AnswersView {
  constructor(table, onPoint, onChoose) {
    this.table = table;
    this.head = table.tHead.rows[0];
    this.body = table.tBodies[0];
    this.frame = table.parentElement;
    Object.assign(this, { turns: [], columns: [], rows: new Map(), first: 0, last: 0, stop: 0, pointed: 0, typed: 0 });
    table.addEventListener("pointermove", (event) => hasMoved(event) && this.pointAt(event.target, onPoint));
    table.addEventListener("focusin", ({ target }) => this.pointAt(target, onPoint));
    table.addEventListener("click", ({ target }) => this.pointAt(target, target.matches("button") ? onChoose : onPoint));
    this.frame.addEventListener("keydown", (event) => this.pressKey(event));
    this.frame.addEventListener("scroll", () => this.follow());
  }

  /** Shows these turns. Each column has a title, and a function from a turn to its text. */
  show(turns, columns) {
    const heads = [{ title: "Line", look: "line" }, { title: this.wordsOf ? "In Kotlin" : "Script", look: "script" }, ...columns];
    this.showHeads(heads);
    Object.assign(this, { turns, columns, stop: clamp(this.stop, 0, Math.max(0, turns.length - 1)) });
    setAttribute(this.table, "aria-rowcount", turns.length + 1);
    this.setStyle("--digits", String(Math.max(2, String(turns.at(-1)?.number ?? "").length)));
    this.make(this.isWhole ? 0 : clamp(this.first, 0, turns.length - ROWS_AT_ONCE));
  }

  /** With other columns no row stays. */
  showHeads(heads) {
    const titles = heads.map(({ title, look }) => `${look} ${title}`).join("\n");
    if (titles === this.titles) return;
    this.titles = titles;
    this.head.replaceChildren(...heads.map(({ title, look }) => textElement("th", title, { scope: "col", class: look })));
    this.rows = new Map();
  }

  setStyle(name, value) {
    if (this.table.style.getPropertyValue(name) !== value) this.table.style.setProperty(name, value);
  }

  get isWhole() {
    return this.turns.length <= MOST_ROWS_WHOLE;
  }

  /** How high a row is taken to be, where it isn't made. */
  get rowPixels() {
    return Math.min(ROW_PIXELS, MOST_TABLE_PIXELS / Math.max(1, this.turns.length));
  }

  /** Makes the rows from a place in the list on, and leaves room for the others. What is shown already stays. */
  make(first) {
    const hadFocus = this.body.contains(document.activeElement);
    this.first = first;
    this.last = this.isWhole ? this.turns.length : Math.min(first + ROWS_AT_ONCE, this.turns.length);
    this.setStyle("margin-top", `${first * this.rowPixels}px`);
    this.setStyle("margin-bottom", `${(this.turns.length - this.last) * this.rowPixels}px`);
    const made = this.turns.slice(first, this.last).map((turn, index) => [first + index, this.rowOf(turn, first + index)]);
    this.rows = new Map(made);
    putElements(this.body, [...this.rows.values()]);
    if (!hadFocus) return;
    const button = this.rowAt(this.stop)?.querySelector("button") ?? this.frame;
    button.focus({ preventScroll: true });
  }

  /** The row of a place in the list, as it is there or a new one, with what it is to say. */
  rowOf(turn, index) {
    const row = this.rows.get(index) ?? this.newRow();
    const [button, code] = [row.cells[0].firstElementChild, row.cells[1].firstElementChild.firstElementChild];
    row.turn = turn;
    setAttribute(row, "aria-rowindex", index + 2);
    setAttribute(button, "tabindex", index === this.stop ? "0" : "-1");
    setAttribute(button, "aria-label", `Line ${turn.number}`);
    setText(button, turn.number);
    tellOnce(code, this.wordsOf?.(turn) ?? turn.text);
    this.retellRow(row);
    this.dress(row);
    return row;
  }

  newRow() {
    const row = document.createElement("tr");
    const heading = textElement("th", "", { scope: "row" });
    heading.append(textElement("button", "", { type: "button", title: "Go to this line of the script" }));
    const script = document.createElement("td");
    script.append(codeElement(""));
    row.append(heading, script, ...this.columns.map(({ look }) => textElement("td", "", { class: look })));
    return row;
  }

  /** Writes into the cells of a row what another text stands for, and elements, of which each is a new one. */
  retellRow(row) {
    this.columns.forEach(({ textOf, elementOf }, index) => {
      const cell = row.cells[index + 2];
      const element = elementOf?.(row.turn);
      if (!element) return tellOnce(cell, textOf(row.turn));
      cell.told = undefined;
      cell.replaceChildren(element);
    });
  }

  /** Writes the row of a turn anew, of which more is known. */
  retell(turn) {
    const row = this.rowAt(turn.column - 1);
    if (row) this.retellRow(row);
  }

  dress(row) {
    row.classList.toggle("bad", isBad(row.turn.answer) && row.turn.number !== this.typed);
    row.classList.toggle("pointed", row.turn.number === this.pointed);
  }

  /** The row of a place in the list, where it is made. */
  rowAt(index) {
    return this.rows.get(index);
  }

  /** Makes other rows where those in sight aren't made. The row that is at the top stays there. */
  follow() {
    if (this.isWhole || this.turns.length === 0) return;
    const { scrollTop, clientHeight } = this.frame;
    const [top, bottom] = [this.table.offsetTop, this.table.offsetTop + this.table.offsetHeight];
    const isMade = (this.first === 0 || scrollTop >= top) && (this.last === this.turns.length || scrollTop + clientHeight <= bottom);
    if (isMade) return;
    const kept = [...this.body.rows].findIndex((row) => this.placeOf(row) + row.offsetHeight > scrollTop);
    const isKept = kept >= 0 && scrollTop + clientHeight > top;
    const index = isKept ? this.first + kept : Math.floor(scrollTop / this.rowPixels);
    const shift = isKept ? this.placeOf(this.body.rows[kept]) - scrollTop : 0;
    this.makeAround(index);
    this.frame.scrollTop = this.placeOf(this.rowAt(clamp(index, this.first, this.last - 1))) - shift;
  }

  makeAround(index) {
    this.make(clamp(Math.floor(index - ROWS_AT_ONCE / 3), 0, this.turns.length - ROWS_AT_ONCE));
  }

  /** How far down in the frame a row begins. */
  placeOf(row) {
    return this.table.offsetTop + row.offsetTop;
  }

  pointAt(target, tell) {
    const turn = target.closest("tr")?.turn;
    if (turn) tell(turn);
  }

  /** One button of all is in the order of the tab key; the arrow keys lead to the others. */
  pressKey(event) {
    const step = { ArrowDown: 1, ArrowUp: -1 }[event.key];
    const next = this.turns[this.stop + step];
    if (!next) return;
    event.preventDefault();
    this.setStop(next.column - 1);
    this.reveal(this.stop);
    this.rowAt(this.stop).querySelector("button").focus({ preventScroll: true });
  }

  /** Lets the tab key lead to the button of this row of all. */
  setStop(index) {
    this.stop = index;
    for (const row of this.body.rows) setAttribute(row.querySelector("button"), "tabindex", row.turn.column - 1 === index ? "0" : "-1");
  }

  /** Marks the row of a line, and shows it. */
  mark(line, turn) {
    this.pointed = line;
    for (const row of this.body.rows) this.dress(row);
    if (!turn) return;
    if (!this.body.contains(document.activeElement)) this.setStop(turn.column - 1);
    this.reveal(turn.column - 1);
  }

  /** A bad line that is still being typed looks like any other. */
  markTyped(line) {
    this.typed = line;
    for (const row of this.body.rows) this.dress(row);
  }

  /** Scrolls the table, and nothing else, until a row is in sight. */
  reveal(index) {
    if (!this.rowAt(index)) this.makeAround(index);
    const row = this.rowAt(index);
    const above = this.placeOf(row) - this.head.offsetHeight;
    const below = this.placeOf(row) + row.offsetHeight;
    if (above < this.frame.scrollTop) this.frame.scrollTop = above;
    else if (below > this.frame.scrollTop + this.frame.clientHeight) this.frame.scrollTop = below - this.frame.clientHeight;
  }
}
