// What stands in Kotlin for the words of a pipe.

/** How numbers are written: short, as they are read in a picture, or as Kotlin's `Long`, as a program needs them. */
const SHORT = { number: (word) => word, fault: (word) => word };
const LONG = { number: longLiteral, fault: longLiteral };
const MOST_LONG = (1n << 63n) - 1n;

/** A number as a `Long`. The upper half of our numbers are the negative ones there: both are counted modulo 2^64. */
function longLiteral(word) {
  const number = BigInt(word);
  return number <= MOST_LONG ? `${number}L` : `${number}uL.toLong()`;
}

function flowBuilder(write) {
  return write === LONG ? "flow<Long>" : "flow";
}

/** The numbers of a list. A pending answer has no counterpart: there a flow suspends. */
function numbersOf(list) {
  return (list ?? "").split(",").filter((word) => word !== "" && word !== "p");
}

const KOTLIN_SOURCES = {
  of: ([list], write) => (numbersOf(list).length === 0 ? "emptyFlow<Long>()" : `flowOf(${numbersOf(list).map(write.number).join(", ")})`),
  range: ([from, to], write) => `(${write.number(from)}..<${write.number(to)}).asFlow()`,
  fail: ([fault, list], write) => {
    const emits = numbersOf(list).map((word) => `emit(${write.number(word)}); `);
    return `${flowBuilder(write)} { ${emits.join("")}throw Fault(${write.fault(fault)}) }`;
  },
};

const KOTLIN_STAGES = {
  add: ([number], write) => `map { it + ${write.number(number)} }`,
  even: () => "filter { it % 2 == 0L }",
  twice: () => "transform { emit(it); emit(it) }",
  take: ([count]) => `take(${count})`,
  drop: ([count]) => `drop(${count})`,
  distinct: () => "distinctUntilChanged()",
  catch: ([how, fault], write) => {
    if (how === "end") return "catch { }";
    return how === "fault" ? `catch { throw Fault(${write.fault(fault)}) }` : `catch { emit(${write.number(how)}) }`;
  },
  done: ([number], write) => `onCompletion { if (it == null) emit(${write.number(number)}) }`,
  concat: ([fault], write) =>
    fault === undefined ? "flatMapConcat { flowOf(it, it + 1) }" : `flatMapConcat { ${flowBuilder(write)} { emit(it); throw Fault(${write.fault(fault)}) } }`,
  zip: (source, write) => `zip(${kotlinSource(source, write)}) { a, b -> a + b }`,
  combine: (source, write) => `combine(${kotlinSource(source, write)}) { a, b -> a + b }`,
};

function kotlinSource([kind, ...rest], write = SHORT) {
  return KOTLIN_SOURCES[kind](rest, write);
}

function kotlinStage([name, ...rest], write = SHORT) {
  return KOTLIN_STAGES[name](rest, write);
}
