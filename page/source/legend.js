// The legend: marks cut out of a picture that the program drew of source/legend.script, each with what it says.

const SAMPLE_WIDTH = 72;

/** The mark of a line on a row, with what stands under it. A row without a name is that of the numbers of lines. */
function sampleOf(picture, { line, row }) {
  const rowIndex = row === "" ? 0 : picture.names.findIndex((name) => name?.words === row);
  const heads = picture.cells.filter((cell) => cell.row === 0);
  const column = 1 + heads.findIndex(({ elements }) => elements.some(({ words }) => words === String(line)));
  const cell = cellAt(picture, column, rowIndex);
  const middle = middleAsDrawn(picture, column);
  const [left, top] = [middle - SAMPLE_WIDTH / 2, rowIndex * ROW_HEIGHT];
  const ways = [picture.guides[column - 1], ...waysBetween(picture, rowIndex, left, left + SAMPLE_WIDTH).map(({ markup }) => markup)];
  const mark = `<g class="mark">${cell.elements.map(({ markup }) => markup).join("")}</g>`;
  return { box: { left, top, width: SAMPLE_WIDTH, height: ROW_HEIGHT }, parts: [...ways, mark].map((markup, index) => new Part(index, markup)) };
}

function sampleSvg(picture, entry) {
  const { box, parts } = sampleOf(picture, entry);
  const svg = new KeptSvg().show(box, 1, parts);
  for (const title of svg.querySelectorAll("title")) title.remove();
  return svg;
}

/** Each sample stands in a shadow tree, for its style. It is a picture beside its words, and told by them. */
function showLegend(list) {
  const picture = readPicture(blockOfData("legend-picture"));
  for (const entry of JSON.parse(blockOfData("legend-list"))) {
    const item = document.createElement("li");
    const sample = textElement("span", "", { class: "sample", "aria-hidden": "true" });
    const style = textElement("style", `${picture.style}\n${blockOfData("picture-style")}`);
    sample.attachShadow({ mode: "open" }).replaceChildren(style, sampleSvg(picture, entry));
    item.append(sample, textElement("span", entry.says));
    list.append(item);
  }
}
