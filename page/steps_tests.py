"""Tests of showing a script line by line, and of guessing its answers."""

from harness import Page, same

SCRIPT = "shared f 0 1 suspend\nsub f a\ntry f 10\ntry f 20\nnext a\nnext a\ncold of 1,2 | add 1\n"
LABELS = "[...document.querySelector('.picture').shadowRoot.querySelectorAll('.mark')].map((it) => it.getAttribute('aria-label').split(':')[0])"
HEADS = "[...document.querySelector('.picture').shadowRoot.querySelectorAll('.heading')].length"


def test_a_script_is_shown_line_by_line(browser, folder):
    page = Page(browser)
    page.tab.show_as(1200, 900)
    page.write(SCRIPT)
    page.tab.ask("document.querySelector('.step').click()")
    same("the first line", (page.tab.ask(LABELS), page.tab.ask(HEADS)), (["Line 1"], 1))
    page.focus_mark("Line 1:")
    for count in (2, 3, 4):
        page.tab.press(".")
        same(f"{count} lines", (page.tab.ask(HEADS), page.tab.ask(LABELS)), (count, [f"Line {it}" for it in range(1, count + 1)]))
    same("answers of those that are shown", [row[2] for row in page.table()], ["ok", "ok", "accepted", "full", "", "", ""])
    same("the line is told", page.read("#pointed"), "Line 4 try f 20 answers full. flow f was full: 20 isn't emitted.")
    page.tab.wait_for("document.querySelector('#pending .after').textContent === 'after line 4'")
    page.tab.press("End")
    same("the keys lead to nothing that isn't shown", page.focused(), "Line 4: flow f was full: 20 isn't emitted")
    page.tab.press(",")
    same("one less", page.tab.ask(HEADS), 3)
    for _ in range(5):
        page.tab.ask("document.querySelector('.step').click()")
    same("all again", (page.tab.ask(HEADS), page.table()[4][2]), (7, "value 10"))
    page.close()


def guess(page, words):
    page.tab.ask(f"(() => {{ const field = document.querySelector('.guess'); field.value = '{words}'; field.form.requestSubmit(); }})()")


def test_answers_are_hidden_until_they_are_guessed(browser, folder):
    page = Page(browser)
    page.tab.show_as(1200, 900)
    page.write(SCRIPT)
    page.tab.ask("document.getElementById('predict').click()")
    asked = "document.querySelector('.guess').getAttribute('aria-label')"
    same("the first that isn't ok", page.tab.ask(asked), "What does line 3 answer?")
    same("it has the focus", page.focused(), "What does line 3 answer?")
    same("nothing is told before", ([row[2] for row in page.table()], page.tab.ask(HEADS)), (["ok", "ok", "", "?", "?", "?", "?"], 2))
    same("no pipe either", page.tab.ask("document.getElementById('pipes').hidden"), True)
    same("nor below the picture", "accepted" in page.tab.ask("document.getElementById('results').innerText"), False)
    guess(page, "Accepted")
    guess(page, "accepted")
    same("right and wrong", [row[2] for row in page.table()][2:4], ["✓ accepted", "✗ full (not accepted)"])
    guess(page, "10")
    same("a value alone will do", page.table()[4][2], "✓ value 10")
    same("the score", page.read("#agreement"), "2 of 3 guesses are right")
    guess(page, " ")
    same("nothing is no guess", page.tab.ask(asked), "What does line 6 answer?")
    guess(page, "pending")
    guess(page, "[2, 3]  finished")
    same("all are guessed", (page.tab.ask("document.querySelector('.guess')"), page.read("#agreement"), page.table()[6][2]), (None, "4 of 5 guesses are right", "✓ [2,3] finished"))
    page.tab.wait_for("!document.getElementById('pipes').hidden")
    page.tab.ask("document.getElementById('predict').click()")
    same("and without", [row[2] for row in page.table()][2:4], ["accepted", "full"])
    page.close()
