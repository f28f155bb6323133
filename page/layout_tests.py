"""Tests of what is in sight, and of what must not mislead."""

import re

from harness import Page, examples, same, text_of

FRAME = """(() => {
  const picture = document.querySelector('.picture'), figure = document.querySelector('#pictures figure');
  const { top, bottom } = document.querySelector('.editor').getBoundingClientRect();
  const names = picture.shadowRoot.querySelector('.names').getBoundingClientRect();
  const inside = [...picture.shadowRoot.querySelectorAll('.mark')].map((it) => it.getBoundingClientRect());
  return {
    isHidden: figure.hidden, width: picture.clientWidth, wants: picture.scrollWidth, zoom: parseInt(document.querySelector('.as-drawn').textContent),
    top, bottom, pictureTop: figure.getBoundingClientRect().top, underNames: inside.filter((it) => it.left < names.right - 1).length,
  };
})()"""


def test_each_example_is_in_sight_from_the_beginning(browser, folder):
    page = Page(browser)
    page.tab.show_as(1280, 800)
    for example in examples():
        page.choose_example(example["name"])
        seen = page.tab.ask(FRAME)
        same(f"{example['name']}: script and picture are on the first screen", (seen["top"] < 200, seen["bottom"] < 700, seen["pictureTop"] < 200 or seen["isHidden"]), (True,) * 3)
        comments = "\n".join(it if it.startswith("#") else "" for it in text_of(example).split("\n"))
        page.write(comments)
        same(f"{example['name']}: its comments are in sight", page.tab.ask("(({ scrollWidth, clientWidth }) => scrollWidth <= clientWidth)(document.getElementById('script'))"), True)
        if not seen["isHidden"]:
            same(f"{example['name']}: all of its columns are in sight", (seen["wants"] <= seen["width"], seen["zoom"] >= 65, seen["underNames"]), (True, True, 0))
    page.close()


def test_marks_of_columns_of_their_own_widths_stand_apart(browser, folder):
    page = Page(browser)
    page.tab.show_as(1600, 900)
    page.write("shared f 0 9 suspend\nsub f a\ntry f 1\ntry f 18446744073709551615\ntry f 2\nnext a\nnext a\nnext a\nstate s 12345678901234\nset s 3\ncollect s c\nnext c\n")
    page.tab.ask("document.querySelector('.as-drawn').click()")
    boxes = page.tab.ask("""[...document.querySelector('.picture').shadowRoot.querySelectorAll('.mark')].map((it) => {
      const { left, right, top, bottom } = it.getBoundingClientRect();
      return [it.getAttribute('aria-label'), left, right, top, bottom];
    })""")
    over = [(a[0], b[0]) for a in boxes for b in boxes if a is not b and a[1] < b[2] and b[1] < a[2] and a[3] < b[4] and b[3] < a[4]]
    same("none lies over another", over, [])
    heads = page.tab.ask("""[...document.querySelector('.picture').shadowRoot.querySelectorAll('.heading')].map((it) => {
      const { left, right } = it.getBoundingClientRect();
      return (left + right) / 2;
    })""")
    steps = [round(b - a) for a, b in zip(heads, heads[1:])]
    same("a long value makes its own column wide", (max(steps) > 90, min(steps) < 40), (True, True))
    middle = page.tab.ask("""(() => {
      const { left, right } = document.querySelector('.picture').shadowRoot.querySelector('[aria-label^="Line 4: flow f accepted"]').getBoundingClientRect();
      return (left + right) / 2;
    })()""")
    same("and stands under its number", abs(middle - heads[3]) < 2, True)
    page.close()


# Line 10 has both emissions accepted that wait.
BOTH_LET_IN = """shared f 0 2 suspend
sub f a
sub f b
try f 1
try f 2
emit f x 7
emit f y 18446744073709551615
next b
next b
cancel a
next b
next b
"""


def test_what_one_line_lets_in_stands_side_by_side(browser, folder):
    page = Page(browser)
    page.tab.show_as(1600, 900)
    page.write(BOTH_LET_IN)
    marks = "[...document.querySelector('.picture').shadowRoot.querySelectorAll('.mark')]"
    same("its sentence", page.table()[9][3], "flow f accepted 7 and 18446744073709551615, which were told to wait: emissions 2 and 3; sub a is cancelled")
    seen = page.tab.ask(f"""(() => {{
      const box = (it) => {{ const {{ left, right }} = it.getBoundingClientRect(); return [left, right]; }};
      const of = (line) => {marks}.filter((it) => it.getAttribute('aria-label').startsWith(`Line ${{line}}:`));
      const [let_in, cancelled] = of(10);
      return [...let_in.children, of(9)[0], of(11)[0], let_in, cancelled].map(box);
    }})()""")
    one, other, before, behind, both, middle = seen
    same("one behind the other, between the columns beside it", before[1] < one[0] < one[1] < other[0] < other[1] < behind[0], True)
    same("around the middle of the column", abs(sum(both) - sum(middle)) < 4, True)
    same("by widths of their own", other[1] - other[0] > 3 * (one[1] - one[0]), True)
    said = "[...document.querySelector('.picture').shadowRoot.querySelectorAll('.same')].map((it) => it.getAttribute('aria-label') ?? it.textContent)"
    page.focus_mark("Line 11: sub b")
    same("from a receipt to its mark alone", page.tab.ask(said), ["7#2"])
    page.focus_mark("Line 10: flow f")
    same("from there to each receipt", page.tab.ask(said), ["Line 11: sub b received 7, emission 2", "Line 12: sub b received 18446744073709551615, emission 3"])
    page.close()


def test_a_row_says_which_flow_it_is_of(browser, folder):
    page = Page(browser)
    page.tab.show_as(1200, 900)
    page.write("shared lighthouse 0 1 suspend\nsub lighthouse a\ntry lighthouse 1\nemit lighthouse e 2\nstate s 1\ncollect s c\n")
    told = "[...document.querySelector('.picture').shadowRoot.querySelectorAll('.names .of')].map((it) => it.textContent)"
    same("under its name", page.tab.ask(told), ["of lighthouse", "of lighthouse", "of s"])
    same("it has room", page.tab.ask("""(() => {
      const root = document.querySelector('.picture').shadowRoot, names = root.querySelector('.names').getBoundingClientRect();
      return [...root.querySelectorAll('.names .of')].every((it) => it.getBoundingClientRect().right <= names.right);
    })()"""), True)
    page.close()


def test_in_a_narrow_window_the_picture_stays_above_the_field(browser, folder):
    for script in ("shared f 0 1 suspend\nsub f a\ntry f 1\n" + "next a\n" * 40, "cold of 1,2,3 | twice\n" * 12):
        page = Page(browser)
        page.tab.show_as(400, 800)
        page.write(script)
        page.caret(len(script))
        page.tab.ask("document.querySelector('.editor').scrollIntoView({ block: 'start' })")
        page.tab.ask("new Promise((done) => requestAnimationFrame(() => requestAnimationFrame(done)))")
        places = page.tab.ask("""(() => {
          const box = (it) => document.querySelector(it).getBoundingClientRect();
          const drawn = document.querySelector('#pictures figure').hidden ? '.pipe-picture' : '.picture';
          return [box('.drawn').top, box(drawn).top, box('.drawn').bottom, box('.editor').top, document.documentElement.scrollWidth];
        })()""")
        same("it sticks", (round(places[0]), places[1] < places[2] - 60, places[2] <= places[3] + 1, places[4]), (0, True, True, 400))
        page.close()


def test_a_long_answer_is_told_cut(browser, folder):
    page = Page(browser)
    page.tab.show_as(1200, 900)
    page.write("cold range 0 9000\nstate s 1\n")
    page.caret(0)
    page.tab.wait_for("document.getElementById('pointed').textContent.includes('characters)')")
    heights = page.tab.ask("['#pointed', '#answers tbody tr'].map((it) => document.querySelector(it).getBoundingClientRect().height)")
    same("panel and row stay low", [it < 130 for it in heights], [True, True])
    same("the answer is whole in the table", len(page.table()[0][2]) > 40000, True)
    page.close()


def test_a_line_that_is_being_typed_is_not_counted_as_bad(browser, folder):
    page = Page(browser)
    page.write("state s 1\n")
    page.caret(10)
    page.tab.type("se")
    page.rest()
    same("while it is typed", page.read("#status"), "2 lines are answered.")
    page.tab.press("ArrowUp")
    page.tab.wait_for("document.getElementById('status').textContent === '2 lines are answered, 1 of them is bad.'")
    page.close()


def test_a_note_goes_by_itself(browser, folder):
    page = Page(browser, before="const wait = window.setTimeout; window.setTimeout = (act, time) => wait(act, time === 12000 ? 50 : time);")
    page.write("cold of 1\n")
    page.choose_example("policies")
    page.tab.wait_for("document.getElementById('note').textContent === ''")
    page.close()


def test_what_cannot_be_used_is_read_all_the_same(browser, folder):
    page = Page(browser)
    for scheme in ("light", "dark"):
        page.tab.show_as(1200, 900, scheme)
        colours = page.tab.ask("""(() => {
          const button = document.querySelector('button:disabled');
          return [getComputedStyle(button).color, getComputedStyle(document.body).backgroundColor];
        })()""")
        one, other = sorted((luminance(it) for it in colours), reverse=True)
        same(f"the contrast of a disabled button in {scheme} is at least 4.5", (one + 0.05) / (other + 0.05) >= 4.5, True)
    page.close()


def luminance(colour):
    parts = [int(it) / 255 for it in re.findall(r"\d+", colour)[:3]]
    linear = [it / 12.92 if it <= 0.03928 else ((it + 0.055) / 1.055) ** 2.4 for it in parts]
    return 0.2126 * linear[0] + 0.7152 * linear[1] + 0.0722 * linear[2]


def test_documents_that_are_named_are_links(browser, folder):
    page = Page(browser)
    links = page.tab.ask("[...document.querySelectorAll('a[href$=\".md\"]')].map((it) => it.getAttribute('href'))")
    same("documents beside the page", all(it.startswith("../docs/") for it in links) and len(set(links)) >= 5, True)
    bare = page.tab.ask("(document.body.innerText.match(/docs\\/\\w+\\.md/g) ?? []).length")
    same("none is named without a link", bare, len(links))
    page.close()
