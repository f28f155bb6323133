// The page: a script is typed, run and shown. What is pointed at in one view is marked in all.

/** The address follows the script no more often than this: a browser refuses many changes in a short time. */
const ADDRESS_MILLISECONDS = 300;
const ENGINES = { core: ["core"], lane: ["lane"], both: ["core", "lane"] };
const BROWSERS = "Chrome and Edge have it from version 133 on, Firefox from 134 on.";

const OWN = {
  name: "own",
  title: "Your own script",
  script: "",
  look: `A script of your own, or one that was sent to you. It stands in the address of this page, so a copied link holds it, up
    to ${MOST_LINK_CHARACTERS.toLocaleString("en")} characters of an address.`.replace(/\s+/g, " "),
};

const byId = (id) => document.getElementById(id);
const examples = JSON.parse(blockOfData("examples")).flatMap(({ examples }) => examples);

/**
 * What is shown: the example whose hint stands there, the hints of scripts that were left, the script's runs by the engines
 * asked for, the lines that have an answer, also by their numbers, and views of the pictures.
 */
const page = { example: examples[0], left: new Map(), runs: [], turns: [], byLine: new Map(), fed: new Set(), views: [], timer: 0, keptAt: -Infinity };

const editor = new Editor(byId("script"), byId("gutter"), byId("backdrop"), {
  onInput: changeScript,
  onPoint: pointAtLine,
  onTyped: markBadLines,
  onKotlin: (lines) => showNote(`Kotlin's constructor became ${lines.includes("\n") ? "lines" : "a line"} of the script: ${lines.replaceAll("\n", ", ")}.`),
  onRefuse: (why) => showNote(`That text isn't put in: with it ${why.replace("it", "the script")}.`),
});
const answers = new AnswersView(byId("answers"), (turn) => pointAt(turn), ({ number }) => editor.goTo(number));
const programs = new Programs(showLoadTrouble, showLongRun, showTooLongRun);
const prober = new Prober();
const pipes = new PipesView(byId("pipes"), (script) => prober.answer(script), {
  onPoint: pointAtPipe,
  onWrite: (line, words, group) => editor.writeLine(line, words, group),
  onSave: savePipe,
});
const pending = new PendingView(byId("pending"), (script) => prober.answer(script));
const taken = new TakenFinder((script) => prober.answer(script), showTaken);
const steps = new Steps(showSteps);
const reasons = new Reasons(
  JSON.parse(blockOfData("command-forms")),
  JSON.parse(blockOfData("reasons")),
  async (script) => endsBad(await prober.answer(script)),
  showReason,
);

const completion = new Completion(byId("offered"), editor, (words, line) => {
  return wordsToCome(words, reasons.forms, page.turns.filter(({ number }) => number < line));
});

// ---- What the reader does ----

function engineWish() {
  return document.querySelector("input[name=engine]:checked").value;
}

function setEngine(engine) {
  const choice = document.querySelector(`input[name=engine][value="${CSS.escape(engine)}"]`);
  if (choice) choice.checked = true;
}

function changeScript() {
  showNote("");
  showExample();
  runScript();
  keepSoon();
}

/** Lets address and browser hold the script that is there, at once or after a rest. */
function keepSoon() {
  clearTimeout(page.timer);
  const left = ADDRESS_MILLISECONDS - (performance.now() - page.keptAt);
  if (left <= 0) keepNow();
  else page.timer = setTimeout(() => keepNow(), left);
}

function keepNow(isNewStep = false) {
  clearTimeout(page.timer);
  page.keptAt = performance.now();
  keepInAddress({ script: editor.script, engine: engineWish(), example: page.example.name }, isNewStep);
}

/** Shows an example as a new step, so that the script that was there comes back with the browser's Back, and by undoing. */
function chooseExample(example) {
  const { script } = editor;
  const leaves = script !== "" && !examples.some((it) => it.script === script);
  keepNow();
  page.left.set(script, page.example);
  page.example = example;
  editor.replace(example.script);
  showNote(leaves ? "Your script comes back with Ctrl+Z, or with the browser's Back." : "");
  showExample();
  keepNow(true);
  runScript();
}

/** Shows which example the script is. The hint of one that was changed stays until another is chosen. */
function showExample() {
  const { script } = editor;
  const example = examples.find((it) => it.script === script);
  page.example = example ?? page.left.get(script) ?? page.example;
  byId("example").value = example ? example.name : OWN.name;
  const title = example || page.example === OWN ? OWN.title : `${page.example.title}, changed`;
  byId("example").options[0].textContent = title;
  say("look", page.example.look);
}

/** Takes the script from the address, or from the browser's memory of a step; without either, the first example. */
function takeFromAddress() {
  const asked = wishInAddress();
  document.body.classList.toggle("frame", asked.isFrame);
  const kept = history.state;
  const why = tooManyLines(linesOf(asked.script ?? "").length);
  if (why) showNote(`The script of this link isn't shown: ${why}.`);
  const script = (why ? undefined : asked.script) ?? kept?.script ?? examples[0].script;
  setEngine(asked.engine ?? kept?.engine ?? "core");
  page.example = (kept?.script === script && examples.find(({ name }) => name === kept.example)) || OWN;
  if (script !== editor.script) editor.script = script;
  showExample();
  runScript();
}

/** A menu is closed once something of it is chosen, or something else. */
function closeMenus({ target }) {
  for (const menu of document.querySelectorAll(".menu[open]")) {
    if (!menu.contains(target) || target.closest(".choices button")) menu.open = false;
  }
}

/** Undoes and redoes, wherever the focus is. The key to leave lets a note go. */
function pressKey(event) {
  if (event.key === "Escape") {
    showNote("");
    closeMenus({ target: document.body });
  }
  const isCommand = (event.ctrlKey || event.metaKey) && !event.altKey;
  const key = event.key.toLowerCase();
  if (!isCommand || (key !== "z" && key !== "y")) return;
  event.preventDefault();
  editor.undo(key === "y" || event.shiftKey);
}

// ---- Running it ----

/** Whether what is shown is yet to follow the script. */
function setBusy(isBusy) {
  byId("results").setAttribute("aria-busy", String(isBusy));
}

function runScript() {
  setBusy(true);
  const { script } = editor;
  const why = tooManyLines(editor.lineStarts.length);
  if (why) return refuseLong(why);
  programs.run(script, ENGINES[engineWish()], (results) => {
    try {
      showResults(script, results);
    } catch (fault) {
      showTrouble(`The page met a fault of its own: ${fault}. The script is kept.`);
    }
  });
}

function showLoadTrouble(error) {
  const reason = browserCanRun() ? `${error}` : `this browser has no WebAssembly with 64-bit memory. ${BROWSERS}`;
  showTrouble(`The programs of this page don't load: ${reason} The script is kept.`);
}

function showLongRun() {
  byId("stop").hidden = false;
  byId("status").textContent = "The program is still running.";
}

function stopRun(why = "The run was broken off. The script is kept.") {
  programs.stop();
  byId("stop").hidden = true;
  showTrouble(why);
}

function showTooLongRun() {
  stopRun(`The run took longer than ${MOST_RUN_SECONDS} seconds, and was broken off. The script is kept.`);
}

/** Says that a script has more lines than the page takes. A run that is under way is let go. */
function refuseLong(why) {
  programs.leave();
  byId("stop").hidden = true;
  showTrouble(`The script is too long: ${why}. The script is kept.`);
}

/** What went wrong in a run, in a line; nothing where it came to the script's end. */
function troubleIn({ engine, picture, answers: said }, script) {
  if (said.isTooMuch || picture.isTooMuch) {
    return `The ${said.isTooMuch ? "answers have" : "picture has"} more than 48 MiB, and the run was broken off there. The script is kept.`;
  }
  const ended = [picture, said].find(({ trap, status }) => trap || status !== 0);
  if (!ended) return undefined;
  const { trap, status, errors } = ended;
  if (trap) {
    return `The program stopped by a trap on the engine ${engine} (${trap}). It is proved never to, so the fault lies in what
      carries it here: in the compiling for the browser, or in this page. The script is kept.`;
  }
  if (errors.includes("script too long")) {
    const [bytes, most] = [byteCount(script), MOST_SCRIPT_BYTES].map((count) => count.toLocaleString("en"));
    return `The script is too long: it has ${bytes} bytes, and at most ${most} are read. Nothing is drawn; the script is kept.`;
  }
  return `The program ended with status ${status} on the engine ${engine}: ${errors.trim() || "it said no more"}. The script is kept.`;
}

function showResults(script, results) {
  byId("stop").hidden = true;
  const trouble = results.map((result) => troubleIn(result, script)).find(Boolean);
  if (trouble) return showTrouble(trouble);
  say("trouble", "");
  taken.take(script);
  page.runs = [];
  for (const result of results) page.runs.push(readRun(script, result));
  page.turns = page.runs[0].turns;
  page.fed = fedHosts(page.turns);
  page.byLine = new Map(page.turns.map((turn) => [turn.number, turn]));
  markBadLines();
  steps.take(page.turns);
  showPictures(script);
  answers.show(page.turns, answerColumns());
  pipes.show(page.turns.filter((turn) => steps.isShown(turn)));
  pending.take(script, page.turns);
  taken.find(page.turns);
  reasons.explain(script, page.turns.filter(({ answer }) => isBad(answer)).slice(0, MOST_NAMED_LINES));
  pointAtLine(editor.pointed);
  setBusy(false);
}

/** What the programs wrote for one engine: its lines with their answers, and its picture with its marks told. */
function readRun(script, { engine, picture, answers: said }) {
  const turns = turnsOf(script, said.output);
  const same = page.runs.find(({ svg, output }) => svg === picture.output && output === said.output);
  const drawn = same?.picture ?? readPicture(picture.output);
  if (!same) {
    tellCells(drawn, turns);
    taken.tell(drawn, turns);
  }
  reasons.takeFrom(drawn, turns);
  return { engine, turns, svg: picture.output, output: said.output, picture: drawn };
}

/** Whether all engines that were asked drew and answered the same. */
function agree() {
  const [first, ...others] = page.runs;
  return others.every(({ svg, output }) => svg === first.svg && output === first.output);
}

// ---- The beginning ----

function fillExamples() {
  const groups = JSON.parse(blockOfData("examples"));
  for (const { group, examples: those } of groups) {
    const list = document.createElement("optgroup");
    list.label = group;
    for (const { name, title } of those) list.append(textElement("option", title, { value: name }));
    byId("example").append(list);
  }
  byId("example").addEventListener("change", ({ target }) => {
    chooseExample(examples.find(({ name }) => name === target.value) ?? OWN);
  });
}

async function copyMarkdown() {
  const [engine] = ENGINES[engineWish()];
  const { output, trap } = await prober.draw(editor.script, engine);
  if (trap || output === "") return "The program drew no picture in characters.";
  const address = location.protocol === "file:" ? "" : addressWith(editor.script, engineWish(), false);
  return copyText(markdownWords(editor.script, output, address), "Script and picture are copied as Markdown");
}

async function copyFrame() {
  const words = frameWords(editor.script, engineWish());
  return words ? copyText(words, "The words for a frame are copied") : "The script is too long for a link.";
}

function listen() {
  for (const choice of document.querySelectorAll("input[name=engine]")) {
    choice.addEventListener("change", () => {
      keepNow();
      runScript();
    });
  }
  byId("copy").addEventListener("click", async () => {
    keepNow();
    showNote(await copyLink(editor.script, engineWish()));
  });
  byId("copy-markdown").addEventListener("click", async () => showNote(await copyMarkdown()));
  byId("copy-frame").addEventListener("click", async () => showNote(await copyFrame()));
  byId("whole").addEventListener("click", () => open(addressWith(editor.script, engineWish(), false), "_blank", "noopener"));
  byId("copy-kotlin").addEventListener("click", async () => showNote(await copyText(kotlinProgram(page.turns), "The program is copied")));
  byId("predict").addEventListener("change", ({ target }) => steps.setGuessing(target.checked));
  byId("in-kotlin").addEventListener("change", showInKotlin);
  byId("note").addEventListener("click", () => showNote(""));
  byId("stop").addEventListener("click", () => stopRun());
  byId("to-commands").addEventListener("click", () => byId("commands-title").focus());
  byId("to-engines").addEventListener("click", () => byId("engines-title").focus());
  document.addEventListener("keydown", pressKey);
  document.addEventListener("click", closeMenus);
  addEventListener("popstate", takeFromAddress);
}

fillExamples();
showLegend(byId("legend"));
listen();
takeFromAddress();
programs.load();
