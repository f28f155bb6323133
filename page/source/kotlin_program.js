// A script as a program in Kotlin, which can be pasted and run.
//
// Where a line of a script is one call, so it is there. Who receives is a `Reader`: its collector takes one value each time that it is
// asked. What the script was answered stands beside it, as a comment.

const KOTLIN_HEAD = `import kotlinx.coroutines.*
import kotlinx.coroutines.channels.*
import kotlinx.coroutines.channels.BufferOverflow.*
import kotlinx.coroutines.flow.*

/** A failure of a flow. */
class Fault(number: Long) : Exception("failed $number")

/**
 * Who receives from a flow, one value each time that it is asked. One that was asked while nothing was there takes the next value as it
 * comes, and gives it when it is asked again: in the script that stays pending until then.
 */
class Reader(scope: CoroutineScope, flow: Flow<Long>, vararg prelude: Long) {
    private val asks = Channel<Unit>(Channel.UNLIMITED)
    private val given = ArrayDeque<Long>()
    private var isAsked = false
    private val begun: Flow<Long> = when (flow) {
        is SharedFlow<Long> -> flow.onSubscription { asks.receive(); for (value in prelude) emit(value) }
        else -> flow.onStart { asks.receive() }
    }
    private val job = scope.launch(start = CoroutineStart.UNDISPATCHED) {
        try {
            begun.collect { given.addLast(it); asks.receive() }
        } catch (fault: Fault) {
            println(fault.message)
        }
    }

    suspend fun next(): Long? {
        if (!isAsked) asks.trySend(Unit)
        settle()
        isAsked = given.isEmpty()
        return given.removeFirstOrNull()
    }

    suspend fun cancel() {
        job.cancel()
        settle()
    }
}

/** Lets all others go on, as far as they can. */
suspend fun settle() = repeat(10) { yield() }

/** The values of a flow, and how it ended. */
suspend fun told(flow: Flow<Long>): String {
    val values = mutableListOf<Long>()
    return try {
        flow.collect { values += it }
        "$values finished"
    } catch (fault: Fault) {
        "$values \${fault.message}"
    }
}
`;

/** Each line as a statement. What isn't here is the line itself, printed where it says something. */
const KOTLIN_STATEMENTS = {
  sub: ([flow, name, , prelude]) => `val ${kotlinName(name)} = Reader(this, ${[kotlinName(flow), ...(prelude ?? "").split(",").filter(Boolean).map(longLiteral)].join(", ")})`,
  collect: ([state, name]) => `val ${kotlinName(name)} = Reader(this, ${kotlinName(state)})`,
  next: ([name]) => `println(${kotlinName(name)}.next() ?: "pending")`,
  try: ([flow, value]) => `println(${kotlinName(flow)}.tryEmit(${longLiteral(value)}))`,
  emit: ([flow, ticket, value]) => `val ${kotlinName(ticket)} = launch(start = CoroutineStart.UNDISPATCHED) { ${kotlinName(flow)}.emit(${longLiteral(value)}) }`,
  poll: ([ticket]) => `settle(); println(if (${kotlinName(ticket)}.isCompleted) "done" else "waiting")`,
  cache: ([flow]) => `println(${kotlinName(flow)}.replayCache)`,
  count: ([flow], { fed }) => (fed.has(flow) ? KOTLIN_LINES.count([flow], { fed }) : `println(${kotlinName(flow)}.subscriptionCount.value)`),
  set: ([state, value]) => `${kotlinName(state)}.value = ${longLiteral(value)}`,
  cas: ([state, expected, value]) => `println(${kotlinName(state)}.compareAndSet(${longLiteral(expected)}, ${longLiteral(value)}))`,
  value: ([state]) => `println(${kotlinName(state)}.value)`,
  buffer: ([name, capacity, policy, ...source]) => `val ${kotlinName(name)} = Reader(this, ${kotlinSource(source, LONG)}.${kotlinBuffer([capacity, policy])})`,
  cold: (words) => `println(told(${kotlinPipe(words, LONG)}))`,
  share: ([name, replay, extra, policy, ...rest]) => {
    const { kotlin, source } = readStart(rest);
    const upstream = kotlinSource(source, LONG);
    return `val ${kotlinName(name)} = ${upstream}.${kotlinBuffer([extra, policy])}.shareIn(CoroutineScope(coroutineContext + Job()), ${kotlin}, replay = ${BigInt(replay)})`;
  },
  stated: ([name, value, ...rest]) => {
    const { kotlin, source } = readStart(rest);
    return `val ${kotlinName(name)} = ${kotlinSource(source, LONG)}.stateIn(CoroutineScope(coroutineContext + Job()), ${kotlin}, initialValue = ${longLiteral(value)})`;
  },
};

/** A tick lets so much time pass. */
function kotlinWait(moment, last) {
  return moment > last ? `delay(${moment - last})` : "settle()";
}

/** What a script's lines are in Kotlin, each with what the script was answered. */
function kotlinProgram(turns) {
  let last = 0n;
  const fed = fedHosts(turns);
  const lines = turns.map((turn) => {
    const { words: [command, ...rest], answer, text } = turn;
    const told = shortened(answer ?? "");
    if (kotlinOf(turn, fed) === undefined || told.startsWith("refused")) return `    // ${withoutBreaks(text)}: ${withoutBreaks(told)}`;
    const moment = command === "tick" ? BigInt(rest[1]) : last;
    const statement = command === "tick" ? kotlinWait(moment, last) : (KOTLIN_STATEMENTS[command] ?? KOTLIN_LINES[command])(rest, { fed });
    last = moment > last ? moment : last;
    return `    ${statement}${statement.startsWith("//") || told === "ok" ? "" : ` // ${told}`}`;
  });
  const body = ["@OptIn(ExperimentalCoroutinesApi::class, FlowPreview::class)", "fun main() = runBlocking<Unit> {", ...lines, "    coroutineContext.cancelChildren()", "}"];
  return `${KOTLIN_HEAD}\n${body.join("\n")}\n`;
}

/** A comment of Kotlin ends with its line. */
function withoutBreaks(text) {
  return text.replace(/[\r\n\u2028\u2029\u0085]/g, " ");
}
