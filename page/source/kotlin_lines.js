// Each line of a script as Kotlin writes it, to be read beside it.

const KOTLIN_POLICIES = { suspend: "SUSPEND", oldest: "DROP_OLDEST", latest: "DROP_LATEST" };
const KOTLIN_KEYWORDS = new Set(
  "as break class continue do else false for fun if in interface is null object package return super this throw true try typealias typeof val var when while".split(" "),
);
const KOTLIN_COMMANDS = { START: "start", STOP: "stop", STOP_AND_RESET_REPLAY_CACHE: "clear" };

/** A name of a script as one of Kotlin's. */
function kotlinName(name) {
  return KOTLIN_KEYWORDS.has(name) ? `\`${name}\`` : name;
}

function kotlinConstructor([replay, extra, policy]) {
  const overflow = policy === "suspend" ? "" : `, onBufferOverflow = ${KOTLIN_POLICIES[policy]}`;
  return `MutableSharedFlow<Long>(replay = ${BigInt(replay)}, extraBufferCapacity = ${BigInt(extra)}${overflow})`;
}

/** A buffer of Kotlin, which has its policy where it isn't the usual one. */
function kotlinBuffer([capacity, policy]) {
  return `buffer(${BigInt(capacity)}${policy === "suspend" ? "" : `, ${KOTLIN_POLICIES[policy]}`})`;
}

/** Which words a start takes, and how Kotlin writes it. */
function readStart([kind, ...rest]) {
  if (kind === "eager") return { kotlin: "SharingStarted.Eagerly", source: rest };
  if (kind === "lazy") return { kotlin: "SharingStarted.Lazily", source: rest };
  if (kind === "plan") return { kotlin: kotlinPlan(rest[0]), source: rest.slice(1) };
  const [stop, expire] = rest;
  const expiration = expire === "never" ? "" : `, replayExpirationMillis = ${BigInt(expire)}`;
  return { kotlin: `SharingStarted.WhileSubscribed(stopTimeoutMillis = ${BigInt(stop)}${expiration})`, source: rest.slice(2) };
}

/** A strategy of one's own: each command once its moment has come, and so many are subscribed. */
function kotlinPlan(items) {
  const commandOf = (word) => Object.keys(KOTLIN_COMMANDS).find((name) => KOTLIN_COMMANDS[name] === word);
  let last = 0n;
  const steps = items.split(",").map((item) => {
    const [at, low, high, word] = item.split(":");
    const wait = BigInt(at) > last ? `delay(${BigInt(at) - last}); ` : "";
    last = BigInt(at) > last ? BigInt(at) : last;
    return `${wait}count.first { it in ${BigInt(low)}..${BigInt(high)} }; emit(SharingCommand.${commandOf(word)})`;
  });
  return `SharingStarted { count -> flow { ${steps.join("; ")} } }`;
}

function kotlinPipe(words, write) {
  const [source, ...stages] = partsOf(["cold", ...words]);
  return [kotlinSource(source, write), ...stages.map((stage) => kotlinStage(stage, write))].join(".");
}

/** What stands in Kotlin for the words behind each keyword. */
const KOTLIN_LINES = {
  shared: ([name, ...rest]) => `val ${kotlinName(name)} = ${kotlinConstructor(rest)}`,
  sub: ([flow, name, , prelude]) => {
    const emits = prelude === undefined ? "" : `.onSubscription { ${prelude.split(",").map((value) => `emit(${BigInt(value)})`).join("; ")} }`;
    return `val ${kotlinName(name)} = launch { ${kotlinName(flow)}${emits}.collect { … } }`;
  },
  next: ([name]) => `// ${name} takes a value, if one is there`,
  cancel: ([name]) => `${kotlinName(name)}.cancel()`,
  try: ([flow, value]) => `${kotlinName(flow)}.tryEmit(${BigInt(value)})`,
  emit: ([flow, ticket, value]) => `val ${kotlinName(ticket)} = launch { ${kotlinName(flow)}.emit(${BigInt(value)}) }`,
  poll: ([ticket]) => `${kotlinName(ticket)}.isCompleted`,
  withdraw: ([ticket]) => `${kotlinName(ticket)}.cancel()`,
  reset: ([flow]) => `${kotlinName(flow)}.resetReplayCache()`,
  cache: ([flow]) => `${kotlinName(flow)}.replayCache`,
  count: ([flow], { fed }) => (fed.has(flow) ? `// Kotlin counts nobody of ${flow}` : `${kotlinName(flow)}.subscriptionCount.value`),
  state: ([name, value]) => `val ${kotlinName(name)} = MutableStateFlow(${longLiteral(value)})`,
  set: ([state, value]) => `${kotlinName(state)}.value = ${BigInt(value)}`,
  cas: ([state, expected, value]) => `${kotlinName(state)}.compareAndSet(${BigInt(expected)}, ${BigInt(value)})`,
  value: ([state]) => `${kotlinName(state)}.value`,
  collect: ([state, name]) => `val ${kotlinName(name)} = launch { ${kotlinName(state)}.collect { … } }`,
  buffer: ([name, capacity, policy, ...source]) => `val ${kotlinName(name)} = ${kotlinSource(source)}.${kotlinBuffer([capacity, policy])}.produceIn(this)`,
  fill: ([name]) => `// what is above ${name} runs by itself`,
  cold: (words) => `${kotlinPipe(words)}.toList()`,
  share: ([name, replay, extra, policy, ...rest]) => {
    const { kotlin, source } = readStart(rest);
    return `val ${kotlinName(name)} = ${kotlinSource(source)}.${kotlinBuffer([extra, policy])}.shareIn(this, ${kotlin}, replay = ${BigInt(replay)})`;
  },
  stated: ([name, value, ...rest]) => {
    const { kotlin, source } = readStart(rest);
    return `val ${kotlinName(name)} = ${kotlinSource(source)}.stateIn(this, ${kotlin}, initialValue = ${longLiteral(value)})`;
  },
  tick: ([name, moment]) => `// ${BigInt(moment)} ms: ${name} goes on by itself`,
};

/** The flows and states of a script that are behind a source, by their names: Kotlin has less of them. */
function fedHosts(turns) {
  const isMade = ({ words: [command], answer }) => (command === "share" || command === "stated") && answer === "ok";
  return new Set(turns.filter(isMade).map(({ words }) => words[1]));
}

/** A line in Kotlin, of a script with these flows and states behind a source; nothing where the line is bad. */
function kotlinOf({ words: [command, ...rest], answer }, fed) {
  return answer === undefined || isBad(answer) ? undefined : KOTLIN_LINES[command](rest, { fed });
}
