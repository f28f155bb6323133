"""Tests of pipes as marbles: what is drawn, and that their sources are changed by hand."""

import json
import re

from harness import ALT, CONTROL, ROOT, SHIFT, Page, same
from pipe_model import rows_of
from random_scripts import Scripts

PIPES_REST = "document.getElementById('pipes').getAttribute('aria-busy') !== 'true'"
# Each picture: its line, and its rows from the top down, as [value, whose marbles it came of, by row and place].
DRAWN = """[...document.querySelectorAll('.pipe')].map((figure) => {
  const svg = figure.querySelector('.pipe-picture').shadowRoot.querySelector('svg');
  if (!svg) return { line: figure.querySelector('.line').textContent, why: figure.querySelector('.why').textContent };
  const number = (it, name) => Number(it.getAttribute(name));
  const shapes = [...svg.querySelectorAll('.marble, .bar, .fault')].map((it) => {
    const label = it.getAttribute('aria-label');
    const box = it.querySelector('rect, circle');
    const line = it.querySelector('line');
    const x = line ? (number(line, 'x1') + number(line, 'x2')) / 2 : box.tagName === 'circle' ? number(box, 'cx') : number(box, 'x') + number(box, 'width') / 2;
    const y = line ? (number(line, 'y1') + number(line, 'y2')) / 2 : box.tagName === 'circle' ? number(box, 'cy') : number(box, 'y') + number(box, 'height') / 2;
    return { label, x, y, isEnd: Boolean(line), isPending: box?.tagName === 'circle', value: it.querySelector('text')?.textContent };
  });
  const heights = [...new Set(shapes.map(({ y }) => y))].sort((a, b) => a - b);
  const rows = heights.map((y) => shapes.filter((it) => it.y === y && !it.isPending).sort((a, b) => a.x - b.x));
  const placed = (x, y) => {
    const row = heights.indexOf(y);
    const place = rows[row].findIndex((it) => it.x === x);
    return [row, rows[row][place].isEnd ? 'end' : place];
  };
  const threads = [...svg.querySelectorAll('.thread')].map((it) => ({
    from: placed(number(it, 'x1'), number(it, 'y1')), to: placed(number(it, 'x2'), number(it, 'y2')).join() }));
  return {
    line: figure.querySelector('.line').textContent,
    operators: [...svg.querySelectorAll('.operator')].map((it) => it.textContent),
    rows: rows.map((row, index) => ({
      values: row.filter((it) => !it.isEnd).map((it, place) => [it.value, threads.filter(({ to }) => to === `${index},${place}`).map(({ from }) => from)]),
      end: row.at(-1).label.split(',')[0],
    })),
  };
})"""


def drawn(page):
    page.tab.wait_for(PIPES_REST)
    return page.tab.ask(DRAWN)


def wanted_rows(line):
    """What the second writing of the stages says of a line, in the form of what is drawn."""
    rows = rows_of(line)
    if rows is None:
        return None
    end = lambda row: "finished" if row.fault is None else f"failed {row.fault}"
    values = lambda row: [[str(value), [list(it) for it in parents]] for value, parents in row.values]
    return [{"values": values(row), "end": end(row)} for row in rows]


def compare_pipes(page, lines):
    """Holds the pictures of these lines, at most eight, against the second writing; how many were drawn."""
    page.write("\n".join(lines))
    count = 0
    for line, shown in zip(lines, drawn(page), strict=True):
        rows = wanted_rows(line)
        if rows is None or "why" in shown:
            too_long = rows is not None and any(len(row["values"]) > 40 or len(json.dumps(row["values"])) > 600 for row in rows)
            same(f"{line}: why there is no picture", (shown.get("why", "")[:9], rows is None or too_long), ("It was re" if rows is None else "A row has", True))
            continue
        same(line, shown["rows"], rows)
        count += 1
    return count


def random_pipes(seed, count):
    scripts = Scripts(seed)
    return [f"cold {scripts.pipe()}" for _ in range(count)]


def compare_random_pipes(page, seed, count):
    lines = random_pipes(seed, count)
    return sum(compare_pipes(page, lines[at : at + 8]) for at in range(0, count, 8))


def test_a_value_keeps_the_colour_of_what_it_came_of(browser, folder):
    page = Page(browser)
    colours = """[...document.querySelector('.pipe-picture').shadowRoot.querySelectorAll('.marble')]
      .map((it) => [it.getAttribute('aria-label'), getComputedStyle(it.querySelector('rect')).fill])"""
    for scheme, plain in (("light", "rgb(255, 255, 255)"), ("dark", "rgb(43, 47, 52)")):
        page.tab.show_as(1200, 900, scheme)
        page.write("cold of 1,3,5 | add 10 | done 9")
        drawn(page)
        seen = dict(page.tab.ask(colours))
        same("three colours", len({seen[f"{it}, place {place} of 3 of the source"] for place, it in ((1, 1), (2, 3), (3, 5))}), 3)
        same("kept", seen["1, place 1 of 3 of the source"], seen["11, came of 1"])
        same("kept through two stages", seen["5, place 3 of 3 of the source"], seen["15, came of 15"])
        same("none of an end", seen["9, came of the end"], plain)
    page.close()


def fronts_of(line):
    """The front parts of a pipe, each as a line."""
    parts = line.removeprefix("cold ").split(" | ")
    return [f"cold {' | '.join(parts[: count + 1])}" for count in range(len(parts))]


def compare_pipes_with_native(page, seed, count, answers_to):
    """Holds each row that is drawn of random pipes against a native program's answer to that front part of the pipe."""
    lines = random_pipes(seed, count)
    answers, rows = iter(answers_to("\n".join(front for line in lines for front in fronts_of(line))).splitlines()), 0
    for at in range(0, count, 8):
        page.write("\n".join(lines[at : at + 8]))
        for line, shown in zip(lines[at : at + 8], drawn(page), strict=True):
            wanted = [next(answers) for _ in fronts_of(line)]
            is_side = [False] + [side for front in fronts_of(line)[1:] for side in ([True] * bool(re.search(r"\| (zip|combine) [^|]*$", front)) + [False])]
            for row, answer in zip((it for it, side in zip(shown.get("rows", []), is_side, strict="rows" in shown) if not side), wanted):
                same(line, f"[{','.join(value for value, _ in row['values'])}] {row['end']}", answer)
                rows += 1
    return rows


STAGES = (
    ("add 10", "map { it + 10 }"),
    ("even", "filter { it % 2 == 0L }"),
    ("twice", "transform { emit(it); emit(it) }"),
    ("take 2", "take(2)"),
    ("drop 1", "drop(1)"),
    ("distinct", "distinctUntilChanged()"),
    ("catch end", "catch { }"),
    ("catch 9", "catch { emit(9) }"),
    ("catch fault 8", "catch { throw Fault(8) }"),
    ("done 9", "onCompletion { if (it == null) emit(9) }"),
    ("concat", "flatMapConcat { flowOf(it, it + 1) }"),
    ("concat 5", "flatMapConcat { flow { emit(it); throw Fault(5) } }"),
    ("zip of 10,20", "zip(flowOf(10, 20)) { a, b -> a + b }"),
    ("zip fail 5", "zip(flow { throw Fault(5) }) { a, b -> a + b }"),
    ("combine range 3 5", "combine((3..<5).asFlow()) { a, b -> a + b }"),
    ("combine of", "combine(emptyFlow<Long>()) { a, b -> a + b }"),
)


def test_each_stage_is_drawn_with_its_words_in_kotlin(browser, folder):
    page = Page(browser)
    for source in ("of 1,2,p,2,3", "fail 7 1,1,2", "of", "range 4 9"):
        for at in range(0, len(STAGES), 8):
            lines = [f"cold {source} | {stage}" for stage, _ in STAGES[at : at + 8]]
            same("so many are drawn", compare_pipes(page, lines), len(lines))
            same("in Kotlin", [it["operators"] for it in drawn(page)], [[kotlin] for _, kotlin in STAGES[at : at + 8]])
    page.close()


def test_random_pipes_are_drawn_as_a_second_writing_of_the_stages_says(browser, folder):
    page = Page(browser)
    same("most are drawn", compare_random_pipes(page, 5, 64) > 45, True)
    page.close()


def test_a_pipe_without_a_picture_says_why(browser, folder):
    page = Page(browser)
    for line, why in (
        ("cold of 1 | take 0", "It was refused 8, so nothing comes out."),
        ("cold range 0 10001", "Too many values: nothing is drawn."),
        ("cold range 0 41", "A row has more than 40 values, or its numbers are too long: it isn't drawn."),
        ("cold range 0 41 | take 1", "A row has more than 40 values, or its numbers are too long: it isn't drawn."),
    ):
        page.write(line)
        same(line, [it["why"] for it in drawn(page)], [why])
    page.write("cold range 0 40\n")
    same("one of 40", len(drawn(page)[0]["rows"][0]["values"]), 40)
    page.close()


def test_of_many_pipes_those_around_the_line_are_drawn(browser, folder):
    page = Page(browser)
    page.write("".join(f"cold of {it}\n" for it in range(30)))
    same("at first", [it["line"] for it in drawn(page)], [f"Line {it}" for it in range(1, 9)])
    page.caret(10 * 20)
    page.tab.wait_for("document.querySelector('.pipe .line').textContent !== 'Line 1'")
    line = page.tab.ask("document.getElementById('script').value.slice(0, 200).split('\\n').length")
    same("around the caret's line", f"Line {line}" in [it["line"] for it in drawn(page)], True)
    same("and that is marked", page.read(".pipe.pointed .line"), f"Line {line}")
    page.close()


def test_the_pipe_that_is_typed_is_in_sight(browser, folder):
    page = Page(browser)
    page.tab.show_as(1280, 800)
    page.write("")
    page.caret(0)
    page.tab.type("\n".join(f"cold of {it} | add 1" for it in range(6)))
    in_sight = """(() => {
      const [frame, pipe] = ['.pipes', '.pipe.pointed'].map((it) => document.querySelector(it)?.getBoundingClientRect());
      return document.querySelectorAll('.pipe').length === 6 && pipe !== undefined && pipe.top >= frame.top - 1 && pipe.bottom <= frame.bottom + 1;
    })()"""
    page.tab.wait_for(in_sight)
    same("it is the last", page.read(".pipe.pointed .line"), "Line 6")
    page.close()


# The pictures of docs/operators, each of a line.
OPERATORS = {
    "map": "cold of 1,2,3 | add 10",
    "filter": "cold of 1,2,3,4 | even",
    "transform": "cold of 1,2 | twice",
    "take": "cold of 1,2,3,4 | take 2",
    "drop": "cold of 1,2,3,4 | drop 2",
    "distinctUntilChanged": "cold of 1,1,2,2,1 | distinct",
    "catch": "cold fail 7 1,2 | catch 9",
    "onCompletion": "cold of 1,2 | done 9",
    "zip": "cold of 1,2,3 | zip of 10,20",
    "combine": "cold of 1,2 | combine of 10,20,30",
    "flatMapConcat": "cold of 1,5 | concat",
}


def pictures_of_operators(browser):
    """The pictures as a click on each button to save hands them over, by their names."""
    page, found = Page(browser), {}
    for name, line in OPERATORS.items():
        page.write(line)
        drawn(page)
        page.tab.ask("window.saved.length = 0; document.querySelector('.pipe .save').click()")
        found[name] = page.tab.ask("Promise.all(window.saved)")[0] + "\n"
    page.close()
    return found


def test_the_kept_pictures_of_operators_are_those_of_the_page(browser, folder):
    for name, picture in pictures_of_operators(browser).items():
        file = ROOT / f"docs/operators/{name}.svg"
        same(f"docs/operators/{name}.svg (page/test --pictures makes it anew)", file.read_text() if file.exists() else "nothing", picture)
    for document in ("docs/PICTURES.md", "docs/FROM_KOTLIN.md"):
        text = (ROOT / document).read_text()
        same(f"not shown in {document}", [name for name in OPERATORS if f"(operators/{name}.svg)" not in text], [])


# ---- By hand ----

AT = """((part, place) => {
  const it = document.querySelector('.pipe-picture').shadowRoot.querySelector(`.held[data-part="${part}"][data-place="${place}"]`);
  const { left, right, top, bottom } = it.querySelector('rect, circle, line').getBoundingClientRect();
  return [(left + right) / 2, (top + bottom) / 2];
})"""


def begin(browser, line):
    page = Page(browser)
    page.tab.show_as(1200, 900)
    page.write(line)
    drawn(page)
    page.tab.ask("document.querySelector('.pipe').scrollIntoView({ block: 'center' })")
    return page


def place_of(page, part, place):
    return page.tab.ask(f"{AT}({part}, {place})")


def becomes(page, line):
    page.tab.wait_for(f"document.getElementById('script').value === {json.dumps(line)}")
    page.rest()
    page.tab.wait_for(PIPES_REST)


def focus(page, part, place):
    page.tab.ask(f"""document.querySelector('.pipe-picture').shadowRoot
      .querySelector('.held[data-part="{part}"][data-place="{place}"]').focus()""")


def drag(page, begin, *places, touch=False):
    """Drags from a place by others, by the mouse or by a finger."""
    def send(kind, place):
        if touch:
            kinds = {"mousePressed": "touchStart", "mouseMoved": "touchMove", "mouseReleased": "touchEnd"}
            points = [] if kind == "mouseReleased" else [{"x": place[0], "y": place[1]}]
            return page.tab.call("Input.dispatchTouchEvent", type=kinds[kind], touchPoints=points)
        return page.tab.call("Input.dispatchMouseEvent", type=kind, x=place[0], y=place[1], button="left", buttons=1, clickCount=1)

    if not touch:
        page.tab.point(*begin)
    send("mousePressed", begin)
    for at in places:
        middle = ((begin[0] + at[0]) / 2, (begin[1] + at[1]) / 2)
        for one in (middle, at, at):
            send("mouseMoved", one)
            page.tab.ask("new Promise((done) => setTimeout(done, 60))")
            page.rest()
            page.tab.wait_for(PIPES_REST)
    send("mouseReleased", places[-1])
    page.rest()
    page.tab.wait_for(PIPES_REST)


def test_a_marble_is_dragged_and_undone_in_one_step(browser, folder):
    for touch in (False, True):
        page = begin(browser, "cold of 1,2,3,4 | add 10\n")
        to = place_of(page, 0, 3)
        drag(page, place_of(page, 0, 0), (to[0] + 12, to[1]), touch=touch)
        becomes(page, "cold of 2,3,4,1 | add 10\n")
        same("the answer follows", page.table()[0][2], "[12,13,14,11] finished")
        same("the picture too", [it[0] for it in drawn(page)[0]["rows"][1]["values"]], ["12", "13", "14", "11"])
        page.tab.press("z", CONTROL)
        becomes(page, "cold of 1,2,3,4 | add 10\n")
        page.tab.press("z", CONTROL | SHIFT)
        becomes(page, "cold of 2,3,4,1 | add 10\n")
        at = place_of(page, 0, 1)
        drag(page, at, (at[0], at[1] + 60), touch=touch)
        becomes(page, "cold of 2,4,1 | add 10\n")
        at = place_of(page, 0, 0)
        drag(page, place_of(page, 0, 3), (at[0] + 15, at[1]), touch=touch)
        becomes(page, "cold of 2 | add 10\n")
        page.tab.press("z", CONTROL)
        becomes(page, "cold of 2,4,1 | add 10\n")
        page.close()


def test_the_second_source_is_dragged_too(browser, folder):
    page = begin(browser, "shared f 0 1 suspend\ncold range 1 3 | add 1 | zip fail 7 10,20,30\n")
    to = place_of(page, 2, 2)
    drag(page, place_of(page, 2, 0), (to[0] + 14, to[1]))
    becomes(page, "shared f 0 1 suspend\ncold range 1 3 | add 1 | zip fail 7 20,30,10\n")
    drag(page, place_of(page, 0, 1), place_of(page, 0, 0))
    becomes(page, "shared f 0 1 suspend\ncold of 2,1 | add 1 | zip fail 7 20,30,10\n")
    page.close()


def test_a_value_is_put_where_a_row_is_clicked(browser, folder):
    page = begin(browser, "cold of 1,5\n")
    one, other = place_of(page, 0, 0), place_of(page, 0, 1)
    at = {"x": (one[0] + other[0]) / 2, "y": one[1]}
    page.tab.call("Input.dispatchMouseEvent", type="mousePressed", button="left", buttons=1, clickCount=1, **at)
    page.tab.call("Input.dispatchMouseEvent", type="mouseReleased", button="left", clickCount=1, **at)
    becomes(page, "cold of 1,2,5\n")
    same("it is chosen", page.read(".pipe-tools .says"), "Marble 2 of line 1: 2")
    page.close()


def test_a_source_is_changed_by_keys(browser, folder):
    page = begin(browser, "cold of 1,2,3 | twice\n")
    focus(page, 0, 0)
    for key, modifiers, wanted in (
        ("ArrowUp", 0, "of 2,2,3"),
        ("ArrowDown", 0, "of 1,2,3"),
        ("ArrowRight", ALT, "of 2,1,3"),
        ("Enter", 0, "of 2,1,2,3"),
        ("4", 0, "of 2,1,4,3"),
        ("0", 0, "of 2,1,40,3"),
        ("p", 0, "of 2,1,p,3"),
        ("ArrowUp", 0, "of 2,1,1,3"),
        ("Delete", 0, "of 2,1,3"),
        ("ArrowLeft", ALT, "of 2,3,1"),
    ):
        page.tab.press(key, modifiers)
        becomes(page, f"cold {wanted} | twice\n")
    page.tab.press("End")
    focus(page, 0, 3)
    for key, modifiers, wanted in (("ArrowUp", 0, "fail 1 2,3,1"), ("7", 0, "fail 7 2,3,1"), ("ArrowLeft", ALT, "fail 7 2,3"), ("Delete", 0, "of 2,3")):
        page.tab.press(key, modifiers)
        becomes(page, f"cold {wanted} | twice\n")
    for _ in range(14):
        page.tab.press("z", CONTROL)
    becomes(page, "cold of 1,2,3 | twice\n")
    page.close()


def test_a_source_is_changed_by_buttons(browser, folder):
    page = begin(browser, "cold of 1 | twice\n")
    tool = lambda name: page.tab.ask(f"document.querySelector('.pipe-tools .{name}').click()")
    off = "[...document.querySelectorAll('.pipe-tools button')].map((it) => it.disabled)"
    same("nothing is chosen", page.tab.ask(off), [True] * 6)
    focus(page, 0, 0)
    same("earlier and later lead nowhere", page.tab.ask(off), [True, True, False, False, False, False])
    for name, wanted in (("insert", "of 1,2"), ("more", "of 1,3"), ("earlier", "of 3,1"), ("less", "of 2,1"), ("remove", "of 1"), ("remove", "of"), ("more", "fail 1"),
                         ("insert", "fail 1 1"), ("later", None)):
        tool(name)
        if wanted:
            becomes(page, f"cold {wanted} | twice\n")
    page.close()


def test_what_is_typed_is_undone_by_pauses(browser, folder):
    page = Page(browser)
    page.write("")
    page.caret(0)
    for letter in "cold of 1,2":
        page.tab.type(letter)
    page.rest()
    page.tab.ask("new Promise((done) => setTimeout(done, 1100))")
    page.tab.type(" | twice")
    page.rest()
    for wanted in ("cold of 1,2", ""):
        page.tab.press("z", CONTROL)
        becomes(page, wanted)
    for wanted in ("cold of 1,2", "cold of 1,2 | twice"):
        page.tab.press("z", CONTROL | SHIFT)
        becomes(page, wanted)
    page.close()
