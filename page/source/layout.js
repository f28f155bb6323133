// Where the page puts the columns of a picture. The program draws all of them as wide as the widest; here each has the width that it
// needs, so that more are seen at once. What stands in a column is moved as a whole, and what leads along a row is cut to measure.

/** What is least to both sides of a column's middle. */
const LEAST_HALF = 17;
const COLUMN_GAP = 6;
/** How wide a letter is, by the size that the picture gives it. */
const LETTERS = { head: 6.7, number: 6.1, taken: 6.1 };
const WIDE_LETTER = 7.9;
const HOST_LETTER = 6.1;
const NAMES_MARGIN = 8;
/** So far the lines of rows go on behind the last column. */
const BEHIND = 24;

/** How far an element reaches to both sides of its column's middle. */
function reachOf({ markup, tag, look, words }) {
  if (tag === "rect") return halves(numberOf(markup, "width") / 2);
  if (tag !== "text") return halves(0);
  const width = words.length * (LETTERS[look] ?? WIDE_LETTER);
  return look === "value" ? { left: 0, right: VALUE_SHIFT + width } : halves(width / 2);
}

function halves(half) {
  return { left: half, right: half };
}

/** How far behind the middle of its column each mark of a cell has its own: where there are several, they stand side by side. */
function placesBeside(marks) {
  if (marks.length === 1) return [0];
  const widths = marks.map((elements) => 2 * Math.max(...elements.map((one) => reachOf(one).left)) + COLUMN_GAP);
  let end = -widths.reduce((sum, width) => sum + width) / 2;
  return widths.map((width) => Math.round((end += width) - width / 2));
}

/** The elements of a cell, each with how far its mark is behind the middle of the column. */
function placedElements(cell) {
  const marks = marksOf(cell);
  return placesBeside(marks).flatMap((place, index) => marks[index].map((element) => ({ element, place })));
}

class PictureLayout {
  /** Of a picture whose rows may be of a flow or a state: `hosts` says of which, by the words of the row's name. */
  constructor(picture, hosts = new Map()) {
    this.picture = picture;
    const named = picture.names.map((name) => (hosts.has(name?.words) ? NAMES_MARGIN * 2 + (hosts.get(name.words).length + 3) * HOST_LETTER : 0));
    this.namesWidth = named.reduce((most, one) => Math.max(most, one ?? 0), picture.columnsFrom);
    const count = picture.columnCount;
    this.lefts = new Float64Array(count + 2);
    this.middles = new Float64Array(count + 2);
    this.widest = 0;
    this.lefts[1] = this.namesWidth;
    for (let column = 1; column <= count; column++) this.measure(column);
    this.middles[count + 1] = this.lefts[count + 1] + picture.columnWidth / 2;
    this.width = count === 0 ? picture.width : this.lefts[count + 1] + BEHIND;
  }

  measure(column) {
    let [left, right] = [LEAST_HALF, LEAST_HALF];
    for (const { element, place } of this.picture.columns[column].flatMap(placedElements)) {
      const reach = reachOf(element);
      left = Math.max(left, reach.left - place + COLUMN_GAP);
      right = Math.max(right, reach.right + place + COLUMN_GAP);
    }
    this.middles[column] = this.lefts[column] + left;
    this.lefts[column + 1] = this.lefts[column] + left + right;
    this.widest = Math.max(this.widest, left + right);
  }

  widthOf(column) {
    return this.lefts[column + 1] - this.lefts[column];
  }

  /** What stands in a column on a row, as a group: as seen from the column's middle, and moved there as a whole. */
  groupOf(look, cell) {
    const { column, row, more = "" } = cell;
    const markup = `<g class="${look}">${this.markupOf(cell)}${more}</g>`;
    return new Part(`${column} ${row}`, markup, { transform: `translate(${this.middles[column]} 0)` });
  }

  /** The marks of a cell as seen from the middle of its column. Where there are several, each is a group of its own. */
  markupOf(cell) {
    const marks = marksOf(cell);
    if (marks.length === 1) return movedAll(cell.elements, middleAsDrawn(this.picture, cell.column));
    const places = placesBeside(marks);
    return marks.map((elements, index) => `<g>${movedAll(elements, elements[0].middle - places[index])}</g>`).join("");
  }

  /** The column at a place of the page's own. */
  columnAt(x) {
    let [low, high] = [1, this.picture.columnCount + 1];
    while (high - low > 1) {
      const middle = Math.floor((low + high) / 2);
      if (this.lefts[middle] <= x) low = middle;
      else high = middle;
    }
    return x < this.lefts[1] ? 0 : x >= this.lefts[this.picture.columnCount + 1] ? this.picture.columnCount + 1 : low;
  }

  /** Where a place of the program's stands here. */
  placeOf(x) {
    const { picture } = this;
    const column = clamp(columnAt(picture, x), 1, picture.columnCount + 1);
    const most = column > picture.columnCount ? [0, BEHIND - 4] : [this.lefts[column], this.lefts[column + 1]];
    const place = this.middles[column] + x - middleAsDrawn(picture, column);
    return column > picture.columnCount ? this.lefts[column] + clamp(x - leftAsDrawn(picture, column), ...most) : clamp(place, ...most);
  }

  /** A line along a row or down a column, from and to where it belongs here. */
  wayOf(key, { markup, left, right }) {
    return new Part(key, markup.replace(/ x[12]="\d+"/g, ""), { x1: this.placeOf(left), x2: this.placeOf(right) });
  }
}

/** The markup of some elements, so far to the left. */
function movedAll(elements, by) {
  return elements.map(({ markup }) => movedLeft(markup, by)).join("");
}

/** An element as it is written, so far to the left. What stands in it has no place of its own. */
function movedLeft(markup, by) {
  const end = markup.indexOf(">");
  const moved = markup.slice(0, end).replace(/ (x|x1|x2|cx)="(\d+)"/g, (_, name, x) => ` ${name}="${x - by}"`).replace(/ d="M(\d+)/, (_, x) => ` d="M${x - by}`);
  return moved + markup.slice(end);
}

function leftAsDrawn({ columnsFrom, columnWidth }, column) {
  return columnsFrom + (column - 1) * columnWidth;
}

function middleAsDrawn(picture, column) {
  return leftAsDrawn(picture, column) + Math.floor(picture.columnWidth / 2);
}
