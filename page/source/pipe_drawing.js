// A placed pipe as an SVG: rows of marbles, between them the operators as Kotlin writes them, and threads from each value to what
// came of it. A value keeps the colour of the one that it came of; the threads say the same to those who tell no colours apart.

const PIPE_ROW = 46;
const PIPE_BOX = 30;
const PIPE_MARGIN = 16;
const MARBLE_HEIGHT = 26;
const LETTER = 8;
const LEAST_COLUMN = 40;
/** A column in which a row ends, and no marble stands. */
const END_COLUMN = 26;
/** So many colours there are; the ones after begin again. */
const COLOUR_COUNT = 8;

const escaped = (text) => text.replace(/[&<>"]/g, (it) => `&#${it.charCodeAt(0)};`);

function marbleWidth({ value }) {
  return value === null ? 14 : Math.max(MARBLE_HEIGHT, value.length * LETTER + 12);
}

/** The rows from the top down, each with what stands above it: { row, box }, where a row that goes into a stage has no box. */
function rowsOfPipe({ source, stages }) {
  const rows = [{ row: source }];
  for (const { words, side, row } of stages) {
    if (side) rows.push({ row: side });
    rows.push({ row, box: kotlinStage(words) });
  }
  return rows;
}

/** Gives each column its place, and each row its height; how wide and how high the whole is. */
function measurePipe(columns, rows) {
  const needs = new Map(columns.map((column) => [column, { left: END_COLUMN / 2, right: END_COLUMN / 2 }]));
  const widen = (column, left, right) => {
    const need = needs.get(column);
    Object.assign(need, { left: Math.max(need.left, left), right: Math.max(need.right, right) });
  };
  for (const { row } of rows) {
    for (const marble of row.marbles) widen(marble.column, ...Array(2).fill(Math.max(LEAST_COLUMN, marbleWidth(marble) + 10) / 2));
    if (row.end.fault !== null) widen(row.end.column, END_COLUMN / 2, 16 + row.end.fault.length * LETTER);
  }
  let width = PIPE_MARGIN;
  for (const column of columns) {
    const { left, right } = needs.get(column);
    column.x = width + left;
    width += left + right;
  }
  let height = 0;
  for (const one of rows) {
    one.boxTop = height;
    if (one.box) height += PIPE_BOX;
    one.row.y = height + PIPE_ROW / 2;
    height += PIPE_ROW;
  }
  const widest = Math.max(...rows.map(({ box }) => (box ? box.length * LETTER + 36 : 0)));
  return { width: Math.max(width + PIPE_MARGIN, widest, 220), height };
}

/** Which colour each marble has: that of the source's value of which it came. One that came of an end has none. */
function colourMarbles(rows) {
  let next = 0;
  for (const { row } of rows) {
    for (const marble of row.marbles) {
      const [parent] = marble.parents;
      if (row.part !== undefined) marble.colour = marble.value === null ? undefined : next++ % COLOUR_COUNT;
      else marble.colour = parent.colour;
    }
  }
}

function boxMarkup({ box, boxTop }, width) {
  return `<rect class="stage" x="4" y="${boxTop + 1}" width="${width - 8}" height="${PIPE_BOX - 2}" rx="5"/>`
    + `<text class="operator" x="14" y="${boxTop + 20}">${escaped(box)}</text>`;
}

/** Threads from the values that a row's marbles came of. */
function threadsMarkup({ row }) {
  return row.marbles.flatMap((marble) =>
    marble.parents.map((parent) => {
      const look = parent.colour === undefined ? "of-end" : `colour${parent.colour}`;
      return `<line class="thread ${look}" x1="${parent.column.x}" y1="${parent.y}" x2="${marble.column.x}" y2="${row.y}"/>`;
    }),
  );
}

/** What a marble is, in words. */
function nameOfMarble(marble, row) {
  const value = marble.value ?? "pending";
  if (row.part !== undefined) return `${value}, place ${marble.place + 1} of ${row.marbles.length} of ${nameOfSource(row)}`;
  const parents = marble.parents.map((parent) => (parent instanceof RowEnd ? "the end" : parent.value));
  return `${value}, came of ${parents.join(" and ")}`;
}

function nameOfSource({ part }) {
  return part === 0 ? "the source" : `the source of stage ${part}`;
}

/** A group of this look. What of a source is taken hold of says which part of the line it is of, and its place there. */
function openGroup(look, name, row, place, isHeld) {
  const title = `aria-label="${name}"><title>${name}</title>`;
  if (!isHeld || row.part === undefined) return `<g class="${look}" role="img" ${title}`;
  return `<g class="${look} held" data-part="${row.part}" data-place="${place}" role="button" tabindex="-1" ${title}`;
}

function marbleMarkup(marble, row, isHeld) {
  const { x } = marble.column;
  const look = `marble ${marble.colour === undefined ? "of-end" : `colour${marble.colour}`}`;
  const open = openGroup(look, nameOfMarble(marble, row), row, marble.place, isHeld);
  if (marble.value === null) return `${open}<circle cx="${x}" cy="${row.y}" r="5"/></g>`;
  const width = marbleWidth(marble);
  return `${open}<rect x="${x - width / 2}" y="${row.y - MARBLE_HEIGHT / 2}" width="${width}" height="${MARBLE_HEIGHT}" rx="${MARBLE_HEIGHT / 2}"/>`
    + `<text x="${x}" y="${row.y + 5}">${marble.value}</text></g>`;
}

function endMarkup(row, isHeld) {
  const { fault, column: { x } } = row.end;
  const says = fault === null ? "finished" : `failed ${fault}`;
  const name = row.part === undefined ? says : `${says}, the end of ${nameOfSource(row)}`;
  const open = openGroup(fault === null ? "bar" : "fault", name, row, row.marbles.length, isHeld);
  if (fault === null) return `${open}<line x1="${x}" y1="${row.y - 13}" x2="${x}" y2="${row.y + 13}"/></g>`;
  const cross = `<line x1="${x - 8}" y1="${row.y - 8}" x2="${x + 8}" y2="${row.y + 8}"/><line x1="${x - 8}" y1="${row.y + 8}" x2="${x + 8}" y2="${row.y - 8}"/>`;
  return `${open}${cross}<text x="${x + 13}" y="${row.y - 6}">${fault}</text></g>`;
}

function rowMarkup({ row }, isHeld) {
  const end = row.end.column.x;
  const reach = !isHeld || row.part === undefined ? ""
    : `<rect class="lane" data-part="${row.part}" x="${PIPE_MARGIN - 8}" y="${row.y - 16}" width="${end - PIPE_MARGIN + 8}" height="32"><title>Click to put a value here</title></rect>`;
  return `<line class="row" x1="${PIPE_MARGIN - 8}" y1="${row.y}" x2="${end + 8}" y2="${row.y}"/>${reach}`;
}

/** A pipe as it is drawn: its rows, each with what stands above it; nothing where what the runner said contradicts itself. */
function drawPipe(pipe) {
  const columns = placePipe(pipe);
  if (!columns) return undefined;
  const rows = rowsOfPipe(pipe);
  const { width, height } = measurePipe(columns, rows);
  colourMarbles(rows);
  for (const { row } of rows) for (const one of [...row.marbles, row.end]) one.y = row.y;
  return { width, height, boxed: rows, rows: rows.map(({ row }) => row) };
}

/** The SVG of a drawing. On the page its sources can be taken hold of; one that is saved brings its style. */
function pipeSvg({ width, height, boxed }, title, isHeld, style = "") {
  const parts = [
    ...boxed.flatMap(threadsMarkup),
    ...boxed.filter(({ box }) => box).map((one) => boxMarkup(one, width)),
    ...boxed.map((one) => rowMarkup(one, isHeld)),
    ...boxed.flatMap(({ row }) => [...row.marbles.map((marble) => marbleMarkup(marble, row, isHeld)), endMarkup(row, isHeld)]),
  ];
  const size = `width="${width}" height="${height}" viewBox="0 0 ${width} ${height}"`;
  return `<svg xmlns="${SVG_NAMESPACE}" ${size} role="group" aria-label="${escaped(title)}">\n${style}${parts.join("\n")}\n</svg>`;
}
