// The programs, as the page sees them: a script and engines go in, and what the programs wrote comes out.

/** A run that takes this long says so; one that is overtaken by another script after so long is broken off. */
const LONG_RUN_MILLISECONDS = 800;
/** A run that takes this long is broken off by itself. */
const MOST_RUN_SECONDS = 20;
/** What is asked beside the script is given up after so long. */
const MOST_PROBE_MILLISECONDS = 4000;

/** Modules with a memory, and with a table, of 64-bit addresses: the least that the programs need of a browser. */
const NEEDED = [
  Uint8Array.of(0, 97, 115, 109, 1, 0, 0, 0, 5, 3, 1, 4, 1),
  Uint8Array.of(0, 97, 115, 109, 1, 0, 0, 0, 4, 4, 1, 112, 4, 1),
];

function browserCanRun() {
  return typeof WebAssembly === "object" && NEEDED.every((module) => WebAssembly.validate(module));
}

/** The text of a block of data in this file. */
function blockOfData(id) {
  return document.getElementById(id).textContent.trim();
}

/** The bytes of a module that is kept in this file, compressed. */
async function moduleBytes(id) {
  const compressed = Uint8Array.from(atob(blockOfData(id)), (character) => character.charCodeAt(0));
  const whole = new Blob([compressed]).stream().pipeThrough(new DecompressionStream("gzip"));
  return new Uint8Array(await new Response(whole).arrayBuffer());
}

function newWorker() {
  const source = new Blob([blockOfData("worker")], { type: "text/javascript" });
  return new Worker(URL.createObjectURL(source));
}

/** Answers scripts beside the programs that draw, in a thread of its own, which begins with the first of them. */
class Prober {
  constructor() {
    Object.assign(this, { worker: null, waiting: new Map(), number: 0 });
  }

  /** What `flow_runner` answers a script with, on the engine `core`. Where it can't be run there is no answer. */
  async answer(script) {
    this.worker ??= this.start();
    const worker = await this.worker;
    this.number += 1;
    const { number } = this;
    worker.postMessage({ number, script, isProbe: true });
    const timer = setTimeout(() => this.giveUp(), MOST_PROBE_MILLISECONDS);
    return new Promise((settle) => this.waiting.set(number, settle)).finally(() => clearTimeout(timer));
  }

  /** The picture in characters that `flow_marbles` draws of a script. */
  async draw(script, engine) {
    this.worker ??= this.start();
    const worker = await this.worker;
    worker.postMessage({ modules: [["flow_marbles", await moduleBytes("module-flow-marbles")]] });
    this.number += 1;
    worker.postMessage({ number: this.number, script, words: ["flow_marbles", engine, "--text"] });
    return new Promise((settle) => this.waiting.set(this.number, settle));
  }

  /** Leaves a worker that takes too long. Nobody who waits for it gets an answer. */
  async giveUp() {
    const left = [...this.waiting.values()];
    const worker = this.worker;
    Object.assign(this, { worker: null, waiting: new Map() });
    (await worker)?.terminate();
    for (const settle of left) settle({ output: "" });
  }

  async start() {
    const worker = newWorker();
    worker.onmessage = ({ data: { number, results } }) => {
      this.waiting.get(number)?.(results?.[0]);
      this.waiting.delete(number);
    };
    worker.postMessage({ modules: [["flow_runner", await moduleBytes("module-flow-runner")]] });
    return worker;
  }
}

class Programs {
  /** Tells `onTrouble` why the modules don't load, `onLong` that a run takes long, and `onTooLong` that it was broken off. */
  constructor(onTrouble, onLong, onTooLong) {
    Object.assign(this, { onTrouble, onLong, onTooLong });
    this.modules = null;
    this.worker = null;
    this.failure = null;
    this.number = 0;
    this.begun = null;
    this.waiting = null;
    this.timer = 0;
  }

  async load() {
    try {
      this.modules = [
        ["flow_marbles", await moduleBytes("module-flow-marbles")],
        ["flow_runner", await moduleBytes("module-flow-runner")],
      ];
      this.start();
    } catch (error) {
      this.giveUp(error);
    }
  }

  start() {
    this.worker = newWorker();
    this.worker.onmessage = ({ data }) => this.hear(data);
    this.worker.onerror = (error) => this.giveUp(error.message);
    this.worker.postMessage({ modules: this.modules });
    if (this.waiting) this.begin();
  }

  hear(message) {
    if (message.failed) this.giveUp(message.failed);
    else if (this.begun && message.number === this.begun.number) this.end(message.results);
  }

  /** The programs don't load: so it is now, and for each script that comes. */
  giveUp(error) {
    clearTimeout(this.timer);
    this.worker?.terminate();
    this.worker = null;
    this.begun = null;
    this.failure = error;
    this.onTrouble(error);
  }

  /** Runs a script, once the run under way has ended or has taken long. Only the latest script that waits is run. */
  run(script, engines, onResults) {
    if (this.failure) return this.onTrouble(this.failure);
    this.number += 1;
    this.waiting = { number: this.number, script, engines, onResults };
    if (!this.worker) return;
    if (!this.begun) this.begin();
    else if (performance.now() - this.begun.at > LONG_RUN_MILLISECONDS) this.stop();
  }

  begin() {
    const { number, script, engines } = this.waiting;
    this.begun = { ...this.waiting, at: performance.now() };
    this.waiting = null;
    this.timer = setTimeout(() => this.isLong(), LONG_RUN_MILLISECONDS);
    this.worker.postMessage({ number, script, engines });
  }

  isLong() {
    if (this.waiting) return this.stop();
    this.onLong();
    this.timer = setTimeout(() => this.onTooLong(), MOST_RUN_SECONDS * 1000 - LONG_RUN_MILLISECONDS);
  }

  end(results) {
    const { onResults } = this.begun;
    clearTimeout(this.timer);
    this.begun = null;
    if (this.waiting) this.begin();
    else onResults(results);
  }

  /** Lets a run go, if one is under way, and what waits for it. */
  leave() {
    this.waiting = null;
    if (this.begun) this.stop();
  }

  /** Breaks the run off. A worker can't be asked to stop, so it is left and another one begins. */
  stop() {
    clearTimeout(this.timer);
    this.worker.terminate();
    this.begun = null;
    this.start();
  }
}
