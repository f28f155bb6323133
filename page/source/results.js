// What is shown of a run: the picture or pictures, the answers, and the line that says what is pointed at.

const PICTURE_STYLE = blockOfData("picture-style");

/** So many bad lines are named one by one. */
const MOST_NAMED_LINES = 8;

/** Sets a text only where it is another one, so that a screen reader doesn't say it again. */
function say(id, text) {
  const element = byId(id);
  if (element.said === text) return;
  element.said = text;
  element.replaceChildren(...partsOfSentence(text));
}

/** So long a note stands there. */
const NOTE_MILLISECONDS = 12000;
let noteTimer = 0;

/** Shows a note over the page, for a while. */
function showNote(text) {
  clearTimeout(noteTimer);
  say("note", text);
  if (text !== "") noteTimer = setTimeout(() => say("note", ""), NOTE_MILLISECONDS);
}

function plural(count, one, many) {
  return `${count.toLocaleString("en")} ${count === 1 ? one : many}`;
}

function showTrouble(text) {
  Object.assign(page, { runs: [], turns: [], byLine: new Map() });
  reasons.explain("", []);
  for (const { figure } of page.views.splice(0)) figure.remove();
  pipes.show([]);
  pending.take("", []);
  taken.take("");
  say("trouble", text);
  markBadLines();
  say("status", "");
  say("agreement", "");
  byId("pointed").replaceChildren();
  answers.show([], answerColumns());
  setBusy(false);
}

/** Marks the lines that are bad. One that is still being typed isn't, and is told apart. */
function markBadLines() {
  const all = page.turns.filter(({ answer }) => isBad(answer)).map(({ number }) => number);
  const bad = all.filter((number) => number !== editor.typed);
  editor.markBad(bad);
  answers.markTyped(editor.typed);
  for (const { view } of page.views) view.markTyped(editor.typed);
  const named = bad.slice(0, MOST_NAMED_LINES).join(", ");
  const more = bad.length > MOST_NAMED_LINES ? ` and ${bad.length - MOST_NAMED_LINES} more` : "";
  const typed = all.length > bad.length ? `Line ${editor.typed}, which you are typing, is no command yet${reasonAt(editor.typed, ": ")}.` : "";
  say("bad-lines", bad.length === 0 ? "" : `${bad.length === 1 ? "Bad line" : "Bad lines"}: ${named}${more}.`);
  say("typed-line", typed);
  say("bad-reason", bad.length > 0 && reasonAt(bad[0]) ? `Of line ${bad[0]}: ${reasonAt(bad[0])}.` : "");
  byId("script").setAttribute("aria-invalid", String(bad.length > 0));
  showStatus(bad.length);
}

/** Why a line is bad, where that is known, with these words before it. */
function reasonAt(number, before = "") {
  const reason = page.byLine.get(number)?.reason;
  return reason ? `${before}${reason}` : "";
}

/** Shows why a line is bad in all places that tell of it. */
function showReason(turn) {
  markBadLines();
  answers.retell(turn);
  if (editor.pointed === turn.number) pointAt(turn);
}

/** Shows what was taken at a tick, in all places that tell of it. */
function showTaken(turn, taken) {
  for (const { view } of page.views) {
    const cell = tellTaken(view.picture, turn, taken);
    if (cell) view.remake(cell);
  }
  answers.retell(turn);
  if (editor.pointed === turn.number) pointAt(turn);
}

function showStatus(bad) {
  const count = plural(page.turns.length, "line is answered", "lines are answered");
  say("status", `${count}${bad > 0 ? `, ${plural(bad, "of them is bad", "of them are bad")}` : ""}.`);
  say("agreement", page.runs.length > 1 ? agreementNote() : "");
  byId("agreement").classList.toggle("bad", !agree());
}

function agreementNote() {
  const [one, other] = page.runs;
  if (agree()) return "core and lane agree: the same answers and the same picture, byte for byte.";
  const at = one.turns.findIndex(({ answer }, index) => answer !== other.turns[index].answer);
  if (at < 0) return "core and lane disagree: the same answers, but another picture.";
  const { number, answer } = one.turns[at];
  return `core and lane disagree, first at line ${number}: core answers ${answer}, lane ${other.turns[at].answer}.`;
}

/** One picture, or one for each engine where they aren't the same. */
function showPictures(script) {
  const engines = page.runs.map(({ engine }) => engine);
  const runs = agree() ? page.runs.slice(0, 1) : page.runs;
  for (const { figure } of page.views.splice(runs.length)) figure.remove();
  while (page.views.length < runs.length) page.views.push(makeFigure());
  page.views.forEach((shown, index) => {
    const { figure, view } = shown;
    shown.run = runs[index];
    setText(figure.querySelector(".engines"), agree() ? engines.join(" and ") : engines[index]);
    setText(figure.querySelector(".empty"), whyEmpty(shown.run.picture, page.turns, script));
    figure.hidden = isEmpty(shown.run.picture) && page.turns.some(runsPipe);
    view.show(shown.run.picture, shown.run.turns, steps.shownTo);
    view.markTyped(editor.typed);
  });
}

/** A figure with the tools of its picture. */
function makeFigure() {
  const figure = byId("figure").content.firstElementChild.cloneNode(true);
  byId("pictures").append(figure);
  const onSight = (view) => showSight(figure, view);
  const view = new PictureView(figure, PICTURE_STYLE, { onPoint: pointAt, onChoose: ({ number }) => editor.goTo(number), onSight });
  const shown = { figure, view };
  const tools = {
    save: () => savePicture(shown.run),
    "save-png": async () => showNote(await savePng(shown.run.svg, `${page.example.name}_${shown.run.engine}`)),
    earlier: () => view.scrollBy(-1),
    later: () => view.scrollBy(1),
    smaller: () => view.zoomBy(-1),
    larger: () => view.zoomBy(1),
    "as-drawn": () => view.zoomBy(),
    step: () => steps.stepBy(1),
  };
  for (const [name, use] of Object.entries(tools)) figure.querySelector(`.${name}`).addEventListener("click", use);
  figure.addEventListener("keydown", (event) => zoomByKey(event, view));
  return shown;
}

/** Zooms, or shows one line more or less. */
function zoomByKey(event, view) {
  const zoom = { "+": 1, "=": 1, "-": -1, 0: 0 }[event.key];
  const step = { ".": 1, ",": -1 }[event.key];
  if ((zoom ?? step) === undefined || event.ctrlKey || event.metaKey || event.altKey) return;
  event.preventDefault();
  if (step) steps.stepBy(step);
  else view.zoomBy(zoom || undefined);
}

/** Says which lines are in sight, and how large they are. A button that leads nowhere is none. */
function showSight(figure, view) {
  const { first, last } = view.inSight(0);
  const count = view.turns.length;
  const tool = (name) => figure.querySelector(`.${name}`);
  const number = (column) => view.turns[column - 1]?.number.toLocaleString("en");
  setText(tool("sight"), count === 0 ? "" : `Lines ${number(first)}–${number(last)} of ${number(count)}`);
  setText(tool("as-drawn"), `${Math.round(view.zoom * 100)} %`);
  tool("earlier").disabled = first <= 1 && view.frame.left === 0;
  tool("later").disabled = last >= count && view.isAtEnd;
  tool("smaller").disabled = view.zoom === ZOOMS[0];
  tool("larger").disabled = view.zoom === ZOOMS.at(-1);
}

function savePicture({ svg, engine }) {
  saveFile(`${page.example.name}_${engine}.svg`, "image/svg+xml", svg);
  showNote("The picture is saved, as the program wrote it.");
}

/** The columns of the table: one of answers, or one for each engine where they differ; and what the picture shows. */
function answerColumns() {
  const { runs } = page;
  const isOne = runs.length < 2 || runs.every(({ output }) => output === runs[0].output);
  const columns = isOne
    ? [{ title: "Answer", look: "answer", textOf: (turn) => steps.textOf(turn, turn.answer ?? "none"), elementOf: (turn) => steps.fieldFor(turn) }]
    : runs.map((run) => ({ title: run.engine, look: "answer", textOf: (turn) => steps.textOf(turn, answerTo(run, turn)) }));
  return [...columns, { title: "In the picture", look: "told", textOf: (turn) => (steps.isShown(turn) ? tellTurn(turn) : "") }];
}

/** Shows each line as Kotlin writes it, or as it stands in the script. */
function showInKotlin() {
  const isWished = byId("in-kotlin").checked;
  answers.wordsOf = isWished ? (turn) => kotlinOf(turn, page.fed) : undefined;
  answers.show(page.turns, answerColumns());
  pointAtLine(editor.pointed);
}

function answerTo(run, { column }) {
  return run.turns[column - 1].answer ?? "none";
}

// ---- Pointing ----

/** Points at a line by its number. One without an answer has no column, and the picture follows to the one before it. */
function pointAtLine(line) {
  const turn = page.byLine.get(line);
  if (turn) return pointAt(turn);
  markAll(line);
  byId("pointed").replaceChildren();
  const before = page.turns.findLast(({ number }) => number < line);
  if (before) for (const { view } of page.views) view.reveal(before.column);
}

/** Points at a line with an answer, and maybe at one mark of it: all views mark it, and a sentence tells it. */
function pointAt(turn, cell) {
  markAll(turn.number, turn, cell);
  if (!steps.isShown(turn)) return tellHidden(turn);
  if (isBad(turn.answer)) reasons.explainFirst(turn);
  const told = shortened(cell ? sentenceOf(cell) : tellTurn(turn));
  const joint = hasMarks(turn) ? ". " : "; ";
  byId("pointed").replaceChildren(
    `Line ${turn.number} `,
    codeElement(shortened(turn.text)),
    ...(byId("in-kotlin").checked ? [", in Kotlin ", codeElement(shortened(kotlinOf(turn, page.fed) ?? "nothing"))] : []),
    " answers ",
    textElement("strong", shortened(turn.answer ?? "nothing")),
    ...partsOfSentence(`${joint}${told}.`),
  );
}

/** Of a line that isn't shown yet nothing is told. */
function tellHidden(turn) {
  byId("pointed").replaceChildren(`Line ${turn.number} `, codeElement(shortened(turn.text)), turn === steps.asked ? ": what does it answer?" : " comes later.");
}

/** More or less of the script is shown. */
function showSteps() {
  const { asked, shownTo } = steps;
  document.body.classList.toggle("predicting", steps.isGuessing);
  for (const { view } of page.views) view.showUpTo(shownTo);
  answers.show(page.turns, answerColumns());
  pipes.show(page.turns.filter((turn) => steps.isShown(turn)));
  say("agreement", steps.guesses.size > 0 ? steps.score : page.runs.length > 1 ? agreementNote() : "");
  const last = page.turns[Math.min(shownTo, page.turns.length) - 1];
  if (shownTo !== Infinity && (last ?? asked)) pointAt(last ?? asked);
  if (!asked) return;
  answers.reveal(asked.column - 1);
  document.querySelector(".guess")?.focus({ preventScroll: true });
}

function markAll(line, turn, cell) {
  editor.mark(line);
  answers.mark(line, turn);
  for (const { view } of page.views) view.mark(turn?.column ?? 0, cell);
  pipes.point(line);
  pending.point(steps.isShown(turn ?? { column: 0 }) ? line : (page.turns[steps.shownTo - 1]?.number ?? 0));
}

/** Points at a pipe's line, and goes there where that is chosen. */
function pointAtPipe(turn, isChosen = false) {
  if (isChosen) editor.goTo(turn.number);
  else if (editor.pointed !== turn.number) pointAt(page.byLine.get(turn.number) ?? turn);
}

/** Saves a pipe's picture, as an SVG or as a PNG. */
async function savePipe({ turn, drawing }, isPng) {
  const name = `${page.example.name}_line${turn.number}`;
  const svg = pipeSvg(drawing, turn.text, false, `<style>\n${PIPE_STYLE}\n</style>\n`);
  if (isPng) return showNote(await savePng(svg, name));
  saveFile(`${name}.svg`, "image/svg+xml", svg);
  showNote("The picture is saved.");
}
