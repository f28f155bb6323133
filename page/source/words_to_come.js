// Which words may stand at a place of a line: commands, names that are bound, policies, sources, starts and stages.

const POLICIES = ["suspend", "oldest", "latest"];
const SOURCES = ["of", "range", "fail"];
const STARTS = ["eager", "lazy", "while", "plan"];
const STAGES_TO_COME = ["add", "even", "twice", "take", "drop", "distinct", "catch", "done", "zip", "combine", "concat"];

/** What the name is that a command makes: which of its words, and of which kind. */
const MAKERS = {
  shared: [1, "shared"],
  share: [1, "share"],
  state: [1, "state"],
  stated: [1, "stated"],
  buffer: [1, "buffer"],
  sub: [2, "sub"],
  collect: [2, "collector"],
  emit: [2, "ticket"],
};

/** Of which kinds the name may be that a command needs. */
const NEEDS = {
  sub: ["shared", "share"],
  next: ["sub", "collector", "buffer"],
  cancel: ["sub", "collector"],
  try: ["shared"],
  emit: ["shared"],
  poll: ["ticket"],
  withdraw: ["ticket"],
  reset: ["shared"],
  cache: ["shared", "share"],
  count: ["shared", "share", "state", "stated"],
  set: ["state"],
  cas: ["state"],
  value: ["state", "stated"],
  collect: ["state", "stated"],
  fill: ["buffer"],
  tick: ["share", "stated"],
};

/** The names that are bound by these lines to something of these kinds. */
function namesOfKinds(turns, kinds) {
  const found = [];
  for (const { words, answer } of turns) {
    const [at, kind] = Object.hasOwn(MAKERS, words[0]) ? MAKERS[words[0]] : [];
    if (kinds.includes(kind) && answer !== undefined && !isBad(answer) && !answer.startsWith("refused")) found.push(words[at]);
  }
  return found;
}

/** The words that may follow those of a command one by one. */
function wordsBehind(words, form) {
  const [last, before, third] = words.slice(-3).reverse();
  const [first] = words;
  const isFirst = words.length === form.words.length + 1;
  if (first === "sub") return isFirst ? ["with"] : [];
  if (first === "cold" || first === "buffer") {
    if (last === "|") return first === "cold" ? STAGES_TO_COME : [];
    return isFirst || last === "zip" || last === "combine" ? SOURCES : [];
  }
  if (isFirst) return STARTS;
  return last === "eager" || last === "lazy" || before === "plan" || third === "while" ? SOURCES : [];
}

/** The words that may stand behind these complete words of a line, below these other lines of the script. */
function wordsToCome(words, forms, turns) {
  if (words.length === 0) return Object.keys(forms);
  const form = Object.hasOwn(forms, words[0]) ? forms[words[0]] : undefined;
  if (!form) return [];
  const kind = form.words[words.length - 1];
  if (kind === "policy") return POLICIES;
  if (kind === "name") return words.length === 1 && !form.makes ? namesOfKinds(turns, NEEDS[words[0]] ?? []) : [];
  return kind === undefined && form.goes_on ? wordsBehind(words, form) : [];
}
