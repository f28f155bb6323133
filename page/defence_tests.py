"""Tests of what a script may do to the page: nothing but be answered."""

import re
import time
import urllib.parse

from harness import INDEX, Page, changed_page, same

PLANT = """(() => {
  window.hits = [];
  const room = document.createElement('div');
  room.innerHTML = `<img src="x" onerror="window.hits.push('handler')"><svg onload="window.hits.push('svg')"></svg><a href="javascript:window.hits.push('link')">x</a>`;
  document.body.append(room);
  const script = document.createElement('script');
  script.textContent = "window.hits.push('script')";
  document.body.append(script);
  room.querySelector('a').click();
  return new Promise((done) => setTimeout(() => done(window.hits), 400));
})()"""


def test_a_handler_that_got_into_the_tree_does_not_run(browser, folder):
    page = Page(browser)
    same("what ran", page.tab.ask(PLANT), [])
    page.close()
    policy = re.search(r"script-src '(sha256-[^']*)'", INDEX.read_text())[1]
    page = Page(browser, changed_page(folder, "open", (f"script-src '{policy}'", "script-src 'unsafe-inline'")))
    same("where the policy lets it, it would", "handler" in page.tab.ask(PLANT), True)
    page.close()


def test_foreign_words_turn_no_sentence_around(browser, folder):
    page = Page(browser)
    page.tab.show_as(1200, 900)
    page.write("shared f 0 1 suspend\n\u202ehello\ntry \u202e 1\n\u2069\u202ebye\n")
    page.tab.wait_for("document.getElementById('bad-reason').textContent !== ''")
    same("why", page.read("#bad-reason"), "Of line 2: its first word is no command (“U+202Ehello”).")
    page.tab.wait_for("document.querySelectorAll('#answers tbody tr')[3].cells[3].textContent.includes('bye')")
    same("one that would end its own marks", page.table()[3][3], "its number is crossed out: its first word is no command (“U+2069U+202Ebye”)")
    page.tab.ask("document.querySelector('#answers tr:nth-child(2) button').focus()")
    page.tab.wait_for("document.querySelector('#pointed code bdi') !== null")
    turned = """[...document.querySelectorAll('#pointed, #bad-reason, #answers')].flatMap((it) => {
      const found = [], walk = document.createTreeWalker(it, NodeFilter.SHOW_TEXT);
      while (walk.nextNode()) if (/[\\u202a-\\u202e\\u2066-\\u2069]/.test(walk.currentNode.data) && !walk.currentNode.parentElement.closest('bdi')) found.push(walk.currentNode.data);
      return found;
    })"""
    same("foreign words outside of an element of their own", page.tab.ask(turned), [])
    page.close()


def test_a_run_is_broken_off_by_itself(browser, folder):
    old = "const host = new Host([name, engine].flat(), input);"
    changes = ((old, f"while (input[0] === 33);\n{old}"), ("const MOST_RUN_SECONDS = 20;", "const MOST_RUN_SECONDS = 2;"))
    page = Page(browser, changed_page(folder, "bound", *changes))
    begun = time.time()
    page.begin("!")
    page.tab.wait_for("!document.getElementById('stop').hidden")
    shown = time.time() - begun
    page.rest()
    same("what is said", page.read("#trouble"), "The run took longer than 2 seconds, and was broken off. The script is kept.")
    same(f"the button came within a second or so: {shown:.1f}", shown < 1.6, True)
    page.write("cold of 1\n")
    same("the next script runs", (page.table()[0][2], page.read("#trouble")), ("[1] finished", ""))
    page.close()


def test_a_script_whose_answers_are_huge_is_broken_off(browser, folder):
    page = Page(browser)
    begun = time.time()
    page.write("cold range 0 9999\n" * 4714)
    same("what is said", page.read("#trouble"), "The answers have more than 48 MiB, and the run was broken off there. The script is kept.")
    same("soon", time.time() - begun < 15, True)
    page.close()


def test_a_text_of_too_many_lines_is_not_put_in(browser, folder):
    page = Page(browser)
    page.write("cold of 1\n")
    page.caret(0)
    page.tab.type("poll e\n" * 149796)
    page.tab.wait_for("document.getElementById('note').textContent !== ''")
    same("what is said", page.read("#note"), "That text isn't put in: with it the script has 149,798 lines, and this page takes at most 20,000.")
    same("the script", page.script(), "cold of 1\n")
    page.close()
    script = urllib.parse.urlencode({"script": "x\n" * 20001})
    page = Page(browser, f"{INDEX.as_uri()}#{script}")
    same("by a link", page.read("#note"), "The script of this link isn't shown: it has 20,001 lines, and this page takes at most 20,000.")
    same("the page begins as ever", len(page.table()) > 3, True)
    page.close()


def test_a_question_that_takes_long_is_given_up(browser, folder):
    old = 'if (isProbe) return'
    changes = ((old, f"if (isProbe && script.includes('99')) while (true);\n  {old}"), ("const MOST_PROBE_MILLISECONDS = 4000;", "const MOST_PROBE_MILLISECONDS = 300;"))
    page = Page(browser, changed_page(folder, "probe", *changes))
    page.write("cold of 99 | add 1\n")
    page.tab.wait_for("document.getElementById('pipes').getAttribute('aria-busy') === 'false'")
    page.write("cold of 1 | add 1\n")
    page.tab.wait_for("document.querySelector('.pipe-picture').shadowRoot.querySelector('svg') !== null")
    page.close()
