// Why a line is bad, by the page's own sources over a picture that was written by hand as crates/marble_pictures writes one:
//
//     node --test page/

import assert from "node:assert";
import { spawnSync } from "node:child_process";
import { readFileSync } from "node:fs";
import { test } from "node:test";
import { runInNewContext } from "node:vm";

const read = (path) => readFileSync(new URL(path, import.meta.url), "utf8");
const sources = ["script.js", "picture.js", "reasons.js"].map((name) => read(`source/${name}`)).join("\n");
const { Reasons, readPicture, turnsOf } = runInNewContext(`${sources}\n({ Reasons, readPicture, turnsOf });`, { TextEncoder, setTimeout, clearTimeout });

const FORMS = {
  shared: { words: ["name", "number", "number", "policy"], goes_on: false, makes: true },
  try: { words: ["name", "number"], goes_on: false, makes: false },
  sub: { words: ["name", "name"], goes_on: true, makes: false },
  next: { words: ["name"], goes_on: false, makes: false },
};
const SENTENCES = {
  TooLong: "it has more than 1,024 bytes",
  NoCommand: "its first word is no command",
  Words: "what stands after its first word isn't what that command takes",
  Unbound: "the name that it needs stands for nothing",
  Bound: "its new name stands for something already",
  OtherKind: "the name that it needs stands for something of another kind",
};

/** The first line of a script; and each later one, with the reason that a program draws, and the one that the page tells. */
const MADE = "shared f 0 1 suspend";
const LINES = [
  ["hello", SENTENCES.NoCommand, "its first word is no command (“hello”)"],
  ["hello &#10;bad command: x", SENTENCES.NoCommand, "its first word is no command (“hello”)"],
  ["try f", SENTENCES.Words, "a word is missing: “try NAME NUMBER”"],
  ["try f 1 2", SENTENCES.Words, "“2” is a word too many for “try NAME NUMBER”"],
  ["try f -1", SENTENCES.Words, "“-1” is no number"],
  ["sub f a with x", SENTENCES.Words, "what follows “sub NAME NAME” is no “with LIST”"],
  ["try g 1", SENTENCES.Unbound, "the name that it needs stands for nothing (“g”)"],
  ["sub f f", SENTENCES.Bound, "its new name stands for something already (“f”)"],
  [MADE, SENTENCES.Bound, "its new name stands for something already (“f”)"],
  ["next f", SENTENCES.OtherKind, "the name that it needs stands for something of another kind (“f”)"],
  [`try f ${"1".repeat(1024)}`, SENTENCES.TooLong, "it has more than 1,024 bytes"],
  ["next <b>", "it was a Sunday", "it was a Sunday"],
];
const TEXTS = [MADE, ...LINES.map(([line]) => line)];
const TURNS = () => turnsOf(TEXTS.join("\n"), ["ok", ...LINES.map((_, index) => `line ${index + 2}: bad command`)].join("\n"));

function escaped(text) {
  return text.replace(/[&<>"]/g, (sign) => ({ "&": "&amp;", "<": "&lt;", ">": "&gt;", '"': "&quot;" })[sign]);
}

/** The picture of the script. Without reasons it is as programs drew it before they told them. */
function pictureOf(hasReasons) {
  const width = 86 + TEXTS.length * 52 + 8;
  const heads = TEXTS.flatMap((line, index) => {
    const x = 86 + index * 52;
    const why = index > 0 && hasReasons ? `&#10;bad command: ${LINES[index - 1][1]}` : "";
    const cross = [`<line class="cross" x1="${x - 9}" y1="13" x2="${x + 9}" y2="31"/>`, `<line class="cross" x1="${x - 9}" y1="31" x2="${x + 9}" y2="13"/>`];
    return [...(index > 0 ? cross : []), `<text class="head" x="${x}" y="26">${index + 1}<title>${escaped(line)}${why}</title></text>`];
  });
  return [
    `<svg xmlns="http://www.w3.org/2000/svg" width="${width}" height="88" viewBox="0 0 ${width} 88" role="img" aria-labelledby="title about">`,
    '<title id="title">Marble diagram of a script of flows</title>',
    '<desc id="about">Time runs to the right. There is a row for each of these: flow f.</desc>',
    "<style>",
    "</style>",
    '<rect class="sheet" width="100%" height="100%"/>',
    '<line class="guide" x1="86" y1="34" x2="86" y2="84"/>',
    `<line class="row" x1="86" y1="66" x2="${width - 8}" y2="66"/>`,
    ...heads,
    '<text class="name" x="8" y="70">flow f</text>',
    '<line class="bar" x1="86" y1="56" x2="86" y2="76"/>',
    "</svg>",
  ].join("\n");
}

/** Whether the last line of a script is bad, as far as these reasons ask it. */
function endsBad(script) {
  const bound = script.includes(MADE) ? ["f"] : [];
  const last = script.split("\n").at(-1).split(" ");
  const isName = (word) => /^[a-z][a-z0-9]{0,15}$/.test(word) && !bound.includes(word);
  const isNumber = (word) => /^\d{1,20}$/.test(word);
  if (last[0] === "state") return !isName(last[1]) || !isNumber(last[2]);
  if (last[0] === "shared") return last[4] !== "suspend";
  if (last[0] === "sub") return last[3] === "with" && !isNumber(last[4]);
  throw new Error(`asked of ${script}`);
}

/** A sentence without the marks around its foreign words. */
function plain(sentence) {
  return sentence?.replace(/[\u2068\u2069]/g, "");
}

function reasonsThatAsk(ask) {
  return new Reasons(FORMS, SENTENCES, async (script) => ask(script), () => {});
}

test("a reason that the picture tells is taken from there, and nothing is asked", () => {
  const turns = TURNS();
  reasonsThatAsk(() => assert.fail("asked")).takeFrom(readPicture(pictureOf(true)), turns);
  const told = LINES.map(([, drawn, wanted]) => (drawn === SENTENCES.Words ? undefined : wanted));
  assert.deepEqual(turns.map(({ reason }) => plain(reason)), [undefined, ...told]);
});

test("of the words of a line the page says more, by what it asks", async () => {
  const [turns, reasons] = [TURNS(), reasonsThatAsk(endsBad)];
  reasons.takeFrom(readPicture(pictureOf(true)), turns);
  for (const [index, [line, drawn, wanted]] of LINES.entries()) {
    if (drawn === SENTENCES.Words) assert.equal(plain(await reasons.reasonOf(`${MADE}\n`, turns[index + 1])), wanted, line);
  }
});

test("where asking finds nothing wrong of the words, the picture's reason stays", async () => {
  const [turns, reasons] = [TURNS(), reasonsThatAsk(() => false)];
  reasons.takeFrom(readPicture(pictureOf(true)), turns);
  assert.equal(await reasons.reasonOf(`${MADE}\n`, turns.find(({ text }) => text === "try f -1")), SENTENCES.Words);
});

test("a picture without reasons gives none, and all are asked for", async () => {
  const [turns, reasons] = [TURNS(), reasonsThatAsk(endsBad)];
  reasons.takeFrom(readPicture(pictureOf(false)), turns);
  assert.deepEqual(turns.filter(({ reason, told }) => reason !== undefined || told !== undefined), []);
  for (const [index, [line, drawn, wanted]] of LINES.entries()) {
    if (Object.values(SENTENCES).includes(drawn)) assert.equal(plain(await reasons.reasonOf(`${MADE}\n`, turns[index + 1])), wanted, line);
  }
});

test("the reasons here are those of the definition", () => {
  const made = spawnSync("python3", ["-c", "import runpy, sys; print(runpy.run_path(sys.argv[1])['reasons']())", "../tools/build_page"], {
    cwd: new URL(".", import.meta.url),
    encoding: "utf8",
  });
  assert.deepEqual(JSON.parse(made.stdout), SENTENCES);
});
