// Runs the programs in a thread of their own, so that a long script never holds up the page.
//
// Messages in: { modules }, then { number, script, engines }, or { number, script, isProbe } where answers are all that is asked for, or
// { number, script, words } for a command line of one's own. Messages out: { loaded } or { failed }, then { number, results }.
"use strict";

/** What a browser gives in one call. */
const MOST_RANDOM_BYTES = 65536;

/** A program that writes more is ended: the page would hold it all in memory, more than once. */
const MOST_WRITTEN_BYTES = 48 << 20;

class TooMuchWritten extends Error {}

/** The compiled modules by the names of their programs. */
const programs = new Map();

/** Settled once all earlier messages are dealt with: a script has to wait for the modules. */
let earlier = Promise.resolve();

self.onmessage = ({ data }) => {
  earlier = earlier.then(() => (data.modules ? load(data.modules) : answer(data)));
};

async function load(modules) {
  try {
    for (const [name, bytes] of modules) programs.set(name, await WebAssembly.compile(bytes));
    self.postMessage({ loaded: true });
  } catch (error) {
    self.postMessage({ failed: String(error) });
  }
}

async function answer({ number, script, engines, isProbe, words }) {
  const input = new TextEncoder().encode(script);
  const results = [];
  if (isProbe) return self.postMessage({ number, results: [await run("flow_runner", "core", input)] });
  if (words) return self.postMessage({ number, results: [await run(words[0], words.slice(1), input)] });
  for (const engine of engines) {
    const answers = await run("flow_runner", engine, input);
    const picture = answers.isTooMuch ? answers : await run("flow_marbles", engine, input);
    results.push({ engine, picture, answers });
  }
  self.postMessage({ number, results });
}

/** Runs a program on an input, by the words behind its name: what it wrote and its status, or the trap that it met. */
async function run(name, engine, input) {
  const host = new Host([name, engine].flat(), input);
  try {
    const instance = await WebAssembly.instantiate(programs.get(name), { page: host.calls() });
    host.memory = instance.exports.memory;
    const status = instance.exports.run();
    return { status, output: host.text(1), errors: host.text(2) };
  } catch (trap) {
    return trap instanceof TooMuchWritten ? { isTooMuch: true } : { trap: String(trap) };
  }
}

/** What a program finds around it: its command line, its input, and where its output goes. */
class Host {
  constructor(words, input) {
    this.words = words.map((word) => new TextEncoder().encode(word));
    this.input = input;
    this.readSoFar = 0;
    this.written = [[], [], []];
    this.writtenBytes = 0;
    this.memory = null;
  }

  /** The functions that source/shim.c imports. Sizes and addresses have 64 bits, which are a BigInt here. */
  calls() {
    return {
      read: (to, most) => this.read(to, Number(most)),
      write: (file, from, count) => this.write(file, from, count),
      random: (to, count) => this.random(to, Number(count)),
      word: (index, to, most) => this.word(this.words[Number(index)], to, Number(most)),
    };
  }

  bytes(address, count) {
    return new Uint8Array(this.memory.buffer, Number(address), Number(count));
  }

  read(to, most) {
    const next = this.input.subarray(this.readSoFar, this.readSoFar + most);
    this.bytes(to, next.length).set(next);
    this.readSoFar += next.length;
    return BigInt(next.length);
  }

  write(file, from, count) {
    this.writtenBytes += Number(count);
    if (this.writtenBytes > MOST_WRITTEN_BYTES) throw new TooMuchWritten();
    this.written[file].push(this.bytes(from, count).slice());
    return count;
  }

  random(to, count) {
    for (let at = 0; at < count; at += MOST_RANDOM_BYTES) {
      crypto.getRandomValues(this.bytes(Number(to) + at, Math.min(MOST_RANDOM_BYTES, count - at)));
    }
  }

  word(word, to, most) {
    if (!word) return -1n;
    if (word.length > most) return -2n;
    this.bytes(to, word.length).set(word);
    return BigInt(word.length);
  }

  /** What was written to a file. */
  text(file) {
    const decoder = new TextDecoder();
    return this.written[file].map((bytes) => decoder.decode(bytes, { stream: true })).join("") + decoder.decode();
  }
}
