// A constructor of Kotlin that is put into the field becomes the line of a script that makes the same.

const SHARED_CONSTRUCTOR = /^(?:(?:private|internal|protected|public|override|lateinit)\s+)*(?:va[lr]\s+(\w+)\s*(?::\s*[\w<>?, ]+)?=\s*)?MutableSharedFlow\s*(?:<[^()]*>)?\s*\(([^()]*)\)\s*;?$/;
const STATE_CONSTRUCTOR = /^(?:(?:private|internal|protected|public|override|lateinit)\s+)*(?:va[lr]\s+(\w+)\s*(?::\s*[\w<>?, ]+)?=\s*)?MutableStateFlow\s*(?:<[^()]*>)?\s*\(\s*([\d_]+)[uUL]*\s*\)\s*;?$/;
const PARAMETERS = ["replay", "extraBufferCapacity", "onBufferOverflow"];

/** A name of Kotlin as one of a script: `_uiEvents` is `uievents`. */
function scriptName(name, otherwise) {
  const kept = (name ?? "").toLowerCase().replace(/[^a-z0-9]/g, "").replace(/^\d+/, "").slice(0, 15);
  return kept === "" ? otherwise : kept;
}

/** The arguments of a constructor by the names of its parameters; nothing where there is one that it doesn't have. */
function readArguments(text) {
  const found = { replay: "0", extraBufferCapacity: "0", onBufferOverflow: "SUSPEND" };
  const words = text.split(",").map((word) => word.trim()).filter(Boolean);
  for (const [index, word] of words.entries()) {
    const [, name, value] = /^(?:(\w+)\s*=\s*)?(.+)$/s.exec(word);
    const parameter = name ?? PARAMETERS[index];
    if (!PARAMETERS.includes(parameter)) return undefined;
    found[parameter] = value.trim().replace(/^.*\./s, "").replace(/(?<=\d)_/g, "");
  }
  return /^\d+$/.test(found.replay) && /^\d+$/.test(found.extraBufferCapacity) ? found : undefined;
}

/** The line of a script for one constructor; nothing where the words are none. */
function lineOfConstructor(words) {
  const state = STATE_CONSTRUCTOR.exec(words);
  if (state) return `state ${scriptName(state[1], "s")} ${state[2].replaceAll("_", "")}`;
  const shared = SHARED_CONSTRUCTOR.exec(words);
  const given = shared && readArguments(shared[2]);
  const policy = given && Object.keys(KOTLIN_POLICIES).find((name) => KOTLIN_POLICIES[name] === given.onBufferOverflow);
  return policy && `shared ${scriptName(shared[1], "f")} ${given.replay} ${given.extraBufferCapacity} ${policy}`;
}

/** The lines for a text of nothing but constructors; nothing where it is something else. */
function scriptOfKotlin(text) {
  if (text.length > 4000 || !text.includes("Mutable")) return undefined;
  const statements = text.replace(/\(\s*([^()]*?)\s*\)/gs, (_, inner) => `(${inner.replace(/\s+/g, " ")})`).split("\n").map((line) => line.trim()).filter(Boolean);
  const lines = statements.map(lineOfConstructor);
  return lines.length > 0 && lines.every(Boolean) ? lines.join("\n") : undefined;
}
