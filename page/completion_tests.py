"""Tests of the words that are offered while a line is typed."""

from harness import CONTROL, Page, same

OFFERED = "[...document.querySelectorAll('#offered:not([hidden]) li')].map((it) => it.textContent)"
MADE = "shared news 1 0 oldest\nshare feed 0 1 suspend eager of 1\nsub news reader\nsub feed rita\nstate light 1\nemit news e1 5\nshared no 0 0 oldest\n"


def offered(page, typed):
    """What is offered behind a line that is typed letter by letter; the line is taken away again."""
    page.write(MADE)
    page.caret(len(MADE))
    for letter in typed:
        page.tab.type(letter)
    page.rest()
    return page.tab.ask(OFFERED)


def test_words_that_may_follow_are_offered(browser, folder):
    page = Page(browser)
    page.tab.show_as(1200, 900)
    for typed, wanted in (
        ("sh", ["shared", "share"]),
        ("c", ["cache", "cancel", "cas", "cold", "collect", "count"]),
        ("", []),
        ("x", []),
        ("sub ", ["news", "feed"]),
        ("sub news ", []),
        ("sub news a w", ["with"]),
        ("try n", ["news"]),
        ("next r", ["reader", "rita"]),
        ("set ", ["light"]),
        ("poll ", ["e1"]),
        ("tick ", ["feed"]),
        ("shared x 1 0 o", ["oldest"]),
        ("shared x 1 0 oldest", []),
        ("cold ", ["of", "range", "fail"]),
        ("cold of 1 | t", ["twice", "take"]),
        ("cold of 1 | zip ", ["of", "range", "fail"]),
        ("cold of 1 | twice ", []),
        ("share x 0 1 suspend ", ["eager", "lazy", "while", "plan"]),
        ("share x 0 1 suspend while 5 never ", ["of", "range", "fail"]),
    ):
        same(repr(typed), sorted(offered(page, typed))[: len(wanted) or 8], sorted(wanted))
    page.close()


def test_a_word_that_is_offered_is_taken(browser, folder):
    page = Page(browser)
    page.tab.show_as(1200, 900)
    offered(page, "next r")
    page.tab.press("Tab")
    page.rest()
    same("by Tab", (page.script(), page.tab.ask("document.activeElement.id")), (f"{MADE}next reader", "script"))
    same("the list is closed", page.tab.ask(OFFERED), [])
    page.tab.press("z", CONTROL)
    page.rest()
    same("one step back", page.script(), f"{MADE}next r")
    offered(page, "next r")
    page.tab.press("ArrowDown")
    page.tab.press("Enter")
    page.rest()
    same("by an arrow and Enter", page.script(), f"{MADE}next rita")
    offered(page, "next r")
    page.tab.press("Escape")
    same("Esc closes it", page.tab.ask(OFFERED), [])
    offered(page, "tr")
    at = page.tab.ask("(() => { const { left, right, top, bottom } = document.querySelector('#offered li').getBoundingClientRect(); return [(left + right) / 2, (top + bottom) / 2]; })()")
    for kind in ("mousePressed", "mouseReleased"):
        page.tab.call("Input.dispatchMouseEvent", type=kind, x=at[0], y=at[1], button="left", clickCount=1)
    page.rest()
    same("by a click", page.script(), f"{MADE}try")
    inside = "(() => { const [list, frame] = ['#offered', '.editor'].map((it) => document.querySelector(it).getBoundingClientRect()); return list.bottom <= frame.bottom && list.right <= frame.right; })()"
    page.write("next a\n" * 60)
    page.caret(420)
    page.tab.type("s")
    page.rest()
    same("it stands within the field", page.tab.ask(inside), True)
    page.close()
