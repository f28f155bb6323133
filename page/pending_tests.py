"""Tests of what is pending after a line, and of what was taken at a tick."""

import random

from harness import Page, same
from pending_model import model_after, told
from random_scripts import Scripts

PANEL = """[...document.querySelectorAll('#pending .host')].map((host) => {
  const boxes = (it, look) => [...it.querySelectorAll(`.box.${look}`)].map((box) => box.textContent);
  const parties = [...host.querySelectorAll('.party')];
  const waits = (it) => it.querySelector('.told').textContent === 'waits for room';
  return {
    name: host.querySelector('strong').textContent,
    kept: [...boxes(host.querySelector('.head'), 'cached'), ...boxes(host.querySelector('.head'), 'has')],
    parties: parties.filter((it) => it.querySelector('.boxes')).map((it) => [it.querySelector('code').textContent, {
      prelude: boxes(it, 'prelude'), pending: boxes(it, 'pending'), free: boxes(it, 'free').length }]),
    waits: parties.filter((it) => !it.querySelector('.boxes') && waits(it)).map((it) => [it.querySelector('code').textContent, it.querySelector('.box').textContent]),
    next: host.querySelector('.next')?.textContent ?? '',
  };
})"""


def panel(page, line):
    """What the panel shows after a line."""
    script = page.script()
    page.caret(len("\n".join(script.split("\n")[: line - 1])) + (line > 1))
    page.tab.wait_for(f"document.querySelector('#pending .after').textContent === 'after line {line}' "
                      "&& document.getElementById('pending').getAttribute('aria-busy') === 'false'")
    return page.tab.ask(PANEL)


def numbers(words):
    return [int(it) for it in words]


def compare_panel(page, script, table, line, what):
    """Holds what the panel shows of flows and states without a source against the second writing; how many lists it compared."""
    done = [row for row in table if int(row[0]) <= line and not row[2].endswith("bad command") and not row[2].startswith("refused")]
    model, compared = model_after([row[1].split() for row in done]), 0
    for shown in panel(page, line):
        host = model.hosts.get(shown["name"].split(" ")[1])
        if host is None:
            continue
        parties = {name: {**lists, "prelude": numbers(lists["prelude"]), "pending": numbers(lists["pending"])} for name, lists in shown["parties"]}
        seen = {"kept": numbers(shown["kept"]), "parties": parties, "waits": {name: int(value) for name, value in shown["waits"]}, "next": shown["next"]}
        same(f"{what}, {shown['name']} after line {line}", seen, told(host))
        compared += 1 + len(parties)
    return compared


def compare_random_panels(page, seed, count, lines):
    scripts, pick, compared = Scripts(seed), random.Random(seed), 0
    for index in range(count):
        script = scripts.script()
        page.write(script)
        table = page.table()
        if page.tab.ask("document.getElementById('pending').hidden"):
            continue
        for row in pick.sample(table, min(lines, len(table))):
            compared += compare_panel(page, script, table, int(row[0]), f"script {index} of seed {seed}:\n{script}\n")
        page.tab.browser.events.clear()
    return compared


def test_what_is_pending_stands_below_the_picture(browser, folder):
    page = Page(browser)
    page.choose_example("policies")
    flow = lambda name, kept, parties, waits, says: {"name": f"flow {name}", "kept": kept, "parties": parties, "waits": waits, "next": says}
    one = lambda name, pending, free: [name, {"prelude": [], "pending": pending, "free": free}]
    full = "Full for a: the next emission waits; a try is refused."
    for line, wanted in (
        (5, flow("wait", [], [one("a", ["1"], 0)], [["second", "2"]], full)),
        (6, flow("wait", [], [one("a", ["2"], 0)], [], full)),
        (12, flow("old", [], [one("b", ["1"], 0)], [], "Full: the next emission takes 1 away from b.")),
        (14, flow("old", [], [one("b", [], 1)], [], "There is room: the next emission is accepted.")),
        (18, flow("new", [], [one("c", ["1"], 0)], [], "Full for c: the next emission is dropped.")),
    ):
        same(f"after line {line}", [it for it in panel(page, line) if it["name"] == wanted["name"]], [wanted])
    page.choose_example("hand_over")
    same("handed over", panel(page, 6)[0]["next"], "No places: the next emission is handed over, and done once all have taken it.")
    page.write("shared f 1 1 oldest\ntry f 1\nsub f a with 7,8\n")
    same("a prelude", panel(page, 3)[0]["parties"], [["a", {"prelude": ["7", "8"], "pending": ["1"], "free": 1}]])
    page.write("state s 1\ncollect s a\nnext a\nset s 2\n")
    same("a state", [(it["kept"], it["parties"]) for it in panel(page, 4)], [(["2"], [["a", {"prelude": [], "pending": ["2"], "free": 0}]])])
    page.close()


def test_random_scripts_have_pending_what_a_second_writing_says(browser, folder):
    page = Page(browser)
    same("so much is compared", compare_random_panels(page, 3, 15, 3) > 100, True)
    page.close()


def test_what_was_taken_at_a_tick_stands_on_its_row(browser, folder):
    page = Page(browser)
    taken = "[...document.querySelector('.picture').shadowRoot.querySelectorAll('.taken')].map((it) => it.textContent)"
    for example, wanted in (("while_subscribed", ["1", "2", "…3", "1"]),):
        page.choose_example(example)
        page.tab.wait_for(f"{taken}.length === {len(wanted)}")
        same(example, page.tab.ask(taken), wanted)
    page.write("share f 0 3 suspend eager of 1,2,p,3,p\nsub f a\ntick f 0\ntick f 1\nnext a\ntick f 2\ntick f 3\n")
    page.tab.wait_for(f"{taken}.length === 4")
    same("four ticks", page.tab.ask(taken), ["1,2", "3", "none", "none"])
    same("in words", page.table()[2][3], "flow f answers on to a tick, and takes 1, 2")
    page.close()
