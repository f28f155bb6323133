// Where the marbles of a pipe stand: columns from left to right, in the order in which things happen. What came of a value stands in
// its column; a second one that came of it has a column of its own, right behind.

/** Columns in order. */
class Columns {
  constructor() {
    this.list = [];
  }

  append() {
    const column = {};
    this.list.push(column);
    return column;
  }

  after(other) {
    const column = {};
    this.list.splice(this.list.indexOf(other) + 1, 0, column);
    return column;
  }

  before(other) {
    const column = {};
    this.list.splice(this.list.indexOf(other), 0, column);
    return column;
  }

  later(one, other) {
    return this.list.indexOf(one) < this.list.indexOf(other) ? other : one;
  }

  /** Whether each marble of a row stands behind the one before it. */
  isInOrder({ marbles, end }) {
    const places = [...marbles, end].map(({ column }) => this.list.indexOf(column));
    return places.every((place, index) => place >= 0 && (index === 0 || places[index - 1] < place));
  }
}

/** Gives each marble and each end of a pipe its column. The columns; nothing where they would contradict each other. */
function placePipe({ source, stages }) {
  const columns = new Columns();
  for (const marble of [...source.marbles, source.end]) marble.column = columns.append();
  for (const stage of stages) {
    if (stage.side) placeSide(columns, stage);
    placeRow(columns, stage);
  }
  const rows = [source, ...stages.flatMap(({ side, row }) => (side ? [side, row] : [row]))];
  return rows.every((row) => columns.isInOrder(row)) ? columns.list : undefined;
}

/** `zip` asks both sides for a pair; `combine` asks them in turn, the pipe's first. */
function placeSide(columns, { words, input, side }) {
  const isZip = words[0] === "zip";
  const asked = [...input.values, input.end];
  let next = 0;
  let last;
  for (const one of [...side.marbles, side.end]) {
    const beside = asked[next];
    if (one.value === null) one.column = last ? columns.after(last) : beside ? columns.before(beside.column) : columns.append();
    else if (!beside) one.column = columns.after(last);
    else one.column = isZip && !(one.value !== undefined && beside === input.end) ? beside.column : columns.after(beside.column);
    if (one.value !== null) next += 1;
    last = one.column;
  }
}

function placeRow(columns, { input, side, row }) {
  let last;
  for (const marble of row.marbles) {
    const wished = marble.parents.map(({ column }) => column).reduce((one, other) => columns.later(one, other));
    marble.column = last === wished || last?.of === wished ? columns.after(last) : wished;
    if (marble.column !== wished) marble.column.of = wished;
    last = marble.column;
  }
  const wished = row.end.endedBy?.column ?? columns.later(input.end.column, side.end.column);
  row.end.column = last && columns.later(last, wished) === last ? columns.after(last) : wished;
  if (row.end.endedBy instanceof Marble && row.end.column === wished) row.end.column = columns.after(wished);
}
