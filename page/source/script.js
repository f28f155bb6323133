// Scripts as text: their lines, and which answer belongs to which line.

const MOST_SCRIPT_BYTES = 1048576;
/** The page takes at most so many lines: a browser's own field takes a second for each key in a longer text. */
const MOST_LINES = 20000;

function linesOf(script) {
  const lines = script.split("\n");
  if (lines.at(-1) === "") lines.pop();
  return lines;
}

/** How many lines two scripts begin with that are the same. */
function sameLines(lines, others) {
  const other = lines.findIndex((line, index) => line !== others[index]);
  return other < 0 ? lines.length : other;
}

/** The words of a line. Only spaces part words: a tab is part of one. */
function wordsOf(line) {
  return line.split(" ").filter((word) => word !== "");
}

/** Whether a line of these words asks for something. Empty lines and comments don't. */
function askSomething(words) {
  return words.length > 0 && !words[0].startsWith("#");
}

/** Why a script isn't taken; nothing where it is. */
function tooManyLines(count) {
  if (count <= MOST_LINES) return undefined;
  const [lines, most] = [count, MOST_LINES].map((number) => number.toLocaleString("en"));
  return `it has ${lines} lines, and this page takes at most ${most}`;
}

function isBad(answer) {
  return answer !== undefined && /^line \d+: bad command$/.test(answer);
}

/**
 * The lines that have an answer, in order: { number, column, words, text, answer }. The column of a line in a picture is its
 * place in this list, from 1. An answer is undefined where the program ended before it.
 */
function turnsOf(script, output) {
  const answers = linesOf(output);
  const turns = [];
  linesOf(script).forEach((text, index) => {
    const words = wordsOf(text);
    if (!askSomething(words)) return;
    const [column, answer] = [turns.length + 1, answers[turns.length]];
    turns.push({ number: index + 1, column, words, text: text.replace(/^ +| +$/g, ""), answer });
  });
  return turns;
}

/** Marks around words that aren't the page's own: they are shown by themselves, and turn nothing around them. */
const [FOREIGN_BEGIN, FOREIGN_END] = ["\u2068", "\u2069"];
/** What turns the direction of a text, or says so. */
const TURNING = /[\u061c\u200e\u200f\u202a-\u202e\u2066-\u2069]/g;

/** Foreign words for a sentence. What would turn the sentence's direction is named instead. */
function foreign(words) {
  const named = words.replace(TURNING, (it) => `U+${it.charCodeAt(0).toString(16).toUpperCase().padStart(4, "0")}`);
  return `${FOREIGN_BEGIN}${named}${FOREIGN_END}`;
}

/** A longer text stands cut where it is only told of. */
const MOST_TOLD_CHARACTERS = 200;

function shortened(text) {
  if (text.length <= MOST_TOLD_CHARACTERS) return text;
  return `${text.slice(0, MOST_TOLD_CHARACTERS)}… (${text.length.toLocaleString("en")} characters)`;
}

function byteCount(script) {
  return new TextEncoder().encode(script).length;
}
