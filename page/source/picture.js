// A picture as the program wrote it, taken apart: columns, rows and marks.
//
// Nothing in the SVG ties a mark to its line but where it stands. Each element is a line of text. Each line of the script
// that has an answer has a column, whose head has the line's number; the columns are equally wide, in the order of the
// lines. The rows are 44 high, the first of them for the heads. So a mark's column follows from the middle of its elements,
// and its row from any of them. Lines come first, row by row from left to right, then marks in the same order.

const ROW_HEIGHT = 44;
/** A value of a state stands so much to the right of its column's middle. */
const VALUE_SHIFT = 4;
/** How the lines begin that lead down a column or along a row. */
const WAY = /^<line class="(?:row|dashed|step)"/;
const GUIDE = '<line class="guide"';
/** The class of the frame of an emission that had to wait, where its flow accepted it. */
const LET_IN = "accepted before";
const TAGS = { l: "line", t: "text", r: "rect", c: "circle", p: "path" };

const QUOTE = '"';

/** The number that an attribute of the first tag of an element has. */
function numberOf(markup, attribute) {
  const from = markup.indexOf(` ${attribute}="`) + attribute.length + 3;
  let number = 0;
  for (let at = from; at < markup.length && markup[at] !== QUOTE; at++) number = number * 10 + (markup.charCodeAt(at) - 48);
  return number;
}

/** The class of an element, which is its first attribute where it has one. */
function lookOf(markup, tag) {
  const from = tag.length + 9;
  return markup.startsWith(' class="', tag.length + 1) ? markup.slice(from, markup.indexOf(QUOTE, from)) : "";
}

/** An element of a picture: its markup, its tag and its class. Where it stands is read once it is asked for. */
class Shape {
  constructor(markup) {
    this.markup = markup;
    this.tag = TAGS[markup[1]];
    this.look = lookOf(markup, this.tag);
  }

  get middle() {
    const { markup, tag, look } = this;
    if (tag === "line") return (this.left + this.right) / 2;
    if (tag === "rect") return numberOf(markup, "x") + numberOf(markup, "width") / 2;
    if (tag === "circle") return numberOf(markup, "cx");
    if (tag === "path") return this.start.x;
    return numberOf(markup, "x") - (look === "value" ? VALUE_SHIFT : 0);
  }

  get row() {
    const { markup, tag } = this;
    if (tag === "line") return rowAt((numberOf(markup, "y1") + numberOf(markup, "y2")) / 2);
    if (tag === "path") return rowAt(this.start.y);
    return rowAt(numberOf(markup, tag === "circle" ? "cy" : "y"));
  }

  /** Where a path begins. */
  get start() {
    const [, x, y] = this.markup.match(/"M(\d+) (\d+)/);
    return { x: Number(x), y: Number(y) };
  }

  /** How far a line reaches to both sides. */
  get left() {
    return numberOf(this.markup, "x1");
  }

  get right() {
    return numberOf(this.markup, "x2");
  }

  /** The words of a text, without the line that stands in its title. */
  get words() {
    return this.tag === "text" ? wordsIn(this.markup) : undefined;
  }

  /** What stands in its title, as it is written. */
  get title() {
    const from = this.markup.indexOf("<title>");
    return from < 0 ? undefined : this.markup.slice(from + 7, this.markup.lastIndexOf("</title>"));
  }
}

function wordsIn(markup) {
  return markup.slice(markup.indexOf(">") + 1, markup.indexOf("<", 1));
}

/**
 * A picture: its width and height, where its columns begin and how wide each is, what stands before its marks, the lines
 * down its columns (`guides`) and along its rows (`ways`, by row), the names of its rows, and its cells: what stands in one
 * column on one row. `columns` has the cells of each column, `cells` those of all columns one after the other.
 */
function readPicture(svg) {
  const lines = svg.split("\n");
  const sheetAt = lines.findIndex((line) => line.startsWith('<rect class="sheet"'));
  const styleAt = lines.indexOf("<style>");
  const [width, height] = [numberOf(lines[0], "width"), numberOf(lines[0], "height")];
  const picture = { width, height, names: [], guides: [], ways: [] };
  [picture.title, picture.about] = lines.slice(1, styleAt).map(wordsIn);
  picture.style = lines.slice(styleAt + 1, sheetAt).join("\n").replace("</style>", "");
  const marks = marksBehindWays(picture, lines.slice(sheetAt + 1, lines.lastIndexOf("</svg>")));
  measureColumns(picture, marks.filter(({ look }) => look === "head"));
  fillCells(picture, marks);
  return picture;
}

/** Sorts the lines that lead down columns and along rows, as they are written; the others as shapes. */
function marksBehindWays(picture, elements) {
  const marks = [];
  for (const markup of elements) {
    if (markup.startsWith(GUIDE)) picture.guides.push(markup);
    else if (WAY.test(markup)) (picture.ways[new Shape(markup).row] ??= []).push(markup);
    else marks.push(new Shape(markup));
  }
  return marks;
}

/** A picture ends 8 behind the column that follows its last one. */
function measureColumns(picture, heads) {
  picture.columnCount = heads.length;
  picture.rowCount = Math.round(picture.height / ROW_HEIGHT);
  if (heads.length === 0) return Object.assign(picture, { columnWidth: 0, columnsFrom: picture.width });
  picture.columnWidth = picture.width - 8 - heads.at(-1).middle;
  picture.columnsFrom = heads[0].middle - Math.floor(picture.columnWidth / 2);
}

function columnAt(picture, x) {
  return Math.floor((x - picture.columnsFrom) / picture.columnWidth) + 1;
}

function rowAt(y) {
  return Math.floor(y / ROW_HEIGHT);
}

function fillCells(picture, marks) {
  picture.columns = Array.from({ length: picture.columnCount + 1 }, () => []);
  for (const element of marks) {
    const { row } = element;
    if (element.look === "name") {
      picture.names[row] = { row, words: element.words, markup: element.markup };
      continue;
    }
    const column = columnAt(picture, element.middle);
    const cells = picture.columns[column];
    if (cells.at(-1)?.row !== row) cells.push({ column, row, elements: [] });
    cells.at(-1).elements.push(element);
  }
  picture.cells = picture.columns.flat();
}

/** The elements of each mark of a cell. What one line has accepted stands side by side there, each mark's frame before the rest of it. */
function marksOf({ elements }) {
  if (elements[0].look !== LET_IN) return [elements];
  const frames = elements.flatMap(({ look }, index) => (look === LET_IN ? [index] : []));
  return frames.map((from, index) => elements.slice(from, frames[index + 1]));
}

/** The cell in a column on a row, where something stands there. */
function cellAt(picture, column, row) {
  return picture.columns[column]?.find((cell) => cell.row === row);
}

/** The lines along a row that are seen between two places. They stand one behind the other, so the first is searched for. */
function waysBetween(picture, row, left, right) {
  const ways = picture.ways[row] ?? [];
  let [low, high] = [0, ways.length];
  while (low < high) {
    const middle = Math.floor((low + high) / 2);
    if (new Shape(ways[middle]).right < left) low = middle + 1;
    else high = middle;
  }
  const end = ways.findIndex((way, at) => at >= low && new Shape(way).left > right);
  return ways.slice(low, end < 0 ? ways.length : end).map((way) => new Shape(way));
}

/** Whether a picture has nothing but the numbers of lines. */
function isEmpty(picture) {
  return !picture.cells.some(({ row }) => row > 0);
}
