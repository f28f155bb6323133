"""Tests of a script as Kotlin writes it."""

import json

from harness import Page, examples, same

LINES = (
    ("shared f 1 1 oldest", "val f = MutableSharedFlow<Long>(replay = 1, extraBufferCapacity = 1, onBufferOverflow = DROP_OLDEST)"),
    ("shared in 0 2 suspend", "val `in` = MutableSharedFlow<Long>(replay = 0, extraBufferCapacity = 2)"),
    ("sub f a", "val a = launch { f.collect { … } }"),
    ("sub f b with 7,8", "val b = launch { f.onSubscription { emit(7); emit(8) }.collect { … } }"),
    ("try f 007", "f.tryEmit(7)"),
    ("emit f e 2", "val e = launch { f.emit(2) }"),
    ("poll e", "e.isCompleted"),
    ("withdraw e", "e.cancel()"),
    ("next a", "// a takes a value, if one is there"),
    ("cancel a", "a.cancel()"),
    ("reset f", "f.resetReplayCache()"),
    ("cache f", "f.replayCache"),
    ("count f", "f.subscriptionCount.value"),
    ("state s 1", "val s = MutableStateFlow(1L)"),
    ("set s 2", "s.value = 2"),
    ("cas s 2 3", "s.compareAndSet(2, 3)"),
    ("value s", "s.value"),
    ("collect s c", "val c = launch { s.collect { … } }"),
    ("buffer q 2 latest range 0 9", "val q = (0..<9).asFlow().buffer(2, DROP_LATEST).produceIn(this)"),
    ("fill q", "// what is above q runs by itself"),
    ("cold fail 7 1,2 | catch 9 | take 2", "flow { emit(1); emit(2); throw Fault(7) }.catch { emit(9) }.take(2).toList()"),
    ("share g 1 1 suspend while 100 never of 1,p,2", "val g = flowOf(1, 2).buffer(1).shareIn(this, SharingStarted.WhileSubscribed(stopTimeoutMillis = 100), replay = 1)"),
    ("stated t 7 lazy of 1", "val t = flowOf(1).stateIn(this, SharingStarted.Lazily, initialValue = 7L)"),
    ("tick g 10", "// 10 ms: g goes on by itself"),
    ("count g", "// Kotlin counts nobody of g"),
    ("try nobody 1", "try nobody 1"),
)


def test_each_line_stands_there_in_kotlin(browser, folder):
    page = Page(browser)
    page.write("\n".join(line for line, _ in LINES))
    same("as it is written", [row[1] for row in page.table()], [line for line, _ in LINES])
    page.tab.ask("document.getElementById('in-kotlin').click()")
    for (line, kotlin), row in zip(LINES, page.table(), strict=True):
        same(line, row[1], kotlin)
    page.caret(0)
    page.tab.wait_for("document.getElementById('pointed').textContent.includes('in Kotlin val f = MutableSharedFlow')")
    keywords = set(page.tab.ask("Object.keys(JSON.parse(document.getElementById('command-forms').textContent))"))
    same("commands of which no line is tried", keywords - {line.split()[0] for line, _ in LINES}, set())
    page.close()


def copied_by(browser, page, button, said):
    """What a button hands over that copies."""
    browser.call("Browser.grantPermissions", permissions=["clipboardReadWrite", "clipboardSanitizedWrite"])
    page.tab.call("Emulation.setFocusEmulationEnabled", enabled=True)
    page.tab.ask(f"(() => {{ showing = document.getElementById('note'); showing.said = ''; showing.textContent = ''; document.getElementById('{button}').click(); }})()")
    page.tab.wait_for(f"document.getElementById('note').textContent.startsWith({json.dumps(said)})")
    return page.tab.ask("navigator.clipboard.readText()")


def test_a_script_is_copied_as_a_program(browser, folder):
    page = Page(browser)
    page.write("shared f 1 0 suspend\nsub f a with 7\ntry f 1\nemit f e 18446744073709551615\nnext a\n# so\nno }\npoll e\ncold of 1 | done 2\n")
    program = copied_by(browser, page, "copy-kotlin", "The program is copied")
    same("its body", program[program.index("fun main") :].splitlines(), [
        "fun main() = runBlocking<Unit> {",
        "    val f = MutableSharedFlow<Long>(replay = 1, extraBufferCapacity = 0)",
        "    val a = Reader(this, f, 7L)",
        "    println(f.tryEmit(1L)) // accepted",
        "    val e = launch(start = CoroutineStart.UNDISPATCHED) { f.emit(18446744073709551615uL.toLong()) } // waiting",
        '    println(a.next() ?: "pending") // value 7',
        "    // no }: line 7: bad command",
        '    settle(); println(if (e.isCompleted) "done" else "waiting") // waiting',
        "    println(told(flowOf(1L).onCompletion { if (it == null) emit(2L) })) // [1,2] finished",
        "    coroutineContext.cancelChildren()",
        "}",
    ])
    for example in examples():
        page.choose_example(example["name"])
        program = copied_by(browser, page, "copy-kotlin", "The program is copied")
        same(f"{example['name']}: words that nobody meant", [it for it in ("undefined", "NaN", "[object") if it in program.partition("runBlocking")[2]], [])
    page.close()


PASTED = (
    ("MutableSharedFlow<Int>()", "shared f 0 0 suspend"),
    ("val events = MutableSharedFlow<Event>(replay = 1, extraBufferCapacity = 64, onBufferOverflow = BufferOverflow.DROP_OLDEST)", "shared events 1 64 oldest"),
    ("private val _uiEvents: MutableSharedFlow<UiEvent> = MutableSharedFlow(\n    extraBufferCapacity = 1,\n    onBufferOverflow = DROP_LATEST,\n)\n", "shared uievents 0 1 latest\n"),
    ("val news = MutableSharedFlow<Long>(2, 1_000)", "shared news 2 1000 suspend"),
    ("val percent = MutableStateFlow(0)", "state percent 0"),
    ("val a = MutableSharedFlow<Int>(1)\nval b = MutableStateFlow(3L)", "shared a 1 0 suspend\nstate b 3"),
    ("val a = MutableSharedFlow<Int>(size = 1)", None),
    ("MutableSharedFlow is a flow", None),
)


def test_a_constructor_that_is_pasted_becomes_its_line(browser, folder):
    page = Page(browser)
    for kotlin, wanted in PASTED:
        page.write("")
        page.caret(0)
        page.tab.type(kotlin)
        page.rest()
        same(json.dumps(kotlin), page.script(), kotlin if wanted is None else wanted)
    page.close()


def test_the_table_of_commands_has_kotlins(browser, folder):
    page = Page(browser)
    heads = page.tab.ask("[...document.querySelector('.words').querySelectorAll('thead th')].map((it) => it.textContent)")
    same("its columns", heads, ["Command", "What it does", "Answers", "In Kotlin (docs/FROM_KOTLIN.md)"])
    same("a link", page.tab.ask("document.querySelector('.words thead a').getAttribute('href')"), "../docs/FROM_KOTLIN.md")
    same("each row has its own", page.tab.ask("[...document.querySelector('.words').tBodies[0].rows].every((it) => it.cells.length === 4 && it.cells[3].textContent)"), True)
    page.close()
