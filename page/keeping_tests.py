"""Tests of what stays while a script is edited: what is shown is what would be made anew, and no more is made than what is another."""

import random
import time

from harness import Page, long_script, same
from random_scripts import Scripts

# All that is shown of a script, as a tree of tags, attributes and texts. A class that was taken away leaves no trace.
SHOWN = """(() => {
  const told = (it) => {
    if (it.nodeType === Node.TEXT_NODE) return it.data;
    const attributes = [...it.attributes].filter(({ name, value }) => name !== 'class' || value !== '').map(({ name, value }) => `${name}=${value}`);
    return [it.tagName, attributes.sort(), [...it.childNodes].filter((one) => one.data !== '').map(told)];
  };
  const root = document.querySelector('.picture')?.shadowRoot;
  const pipes = [...document.querySelectorAll('.pipe')].flatMap((it) => [it, it.querySelector('.pipe-picture').shadowRoot.querySelector('.sheet')]);
  const parts = [root?.querySelector('.names'), root?.querySelector('.columns'), ...document.querySelectorAll('#answers, #gutter, #backdrop'), ...pipes];
  return JSON.stringify([...parts.filter(Boolean).map(told), document.querySelector('#pending .hosts').textContent]);
})()"""
IS_BUSY = "document.querySelectorAll('[aria-busy=true]').length > 0"


def shown(page, looks=1):
    """What is shown, once it was the same at so many looks: nothing says that no more will be known of a tick."""
    seen, same_looks = page.tab.ask(SHOWN), 0
    while same_looks < looks:
        time.sleep(0.25)
        now = page.tab.ask(SHOWN)
        same_looks = same_looks + 1 if now == seen and not page.tab.ask(IS_BUSY) else 0
        seen = now
    return seen


def edited(script, scripts, pick):
    """A script in which one line is another, or gone, or new, or asks for nothing and moves those behind it; often one of the last."""
    lines = script.split("\n")
    at = pick.choice((pick.randrange(len(lines)), max(0, len(lines) - 1 - pick.randrange(4))))
    new = pick.choice(("", "# nothing", "next r", "tick q 9", scripts.line(10 * at), scripts.line(10 * at)))
    lines[at : at + pick.randrange(2)] = pick.choice(([], [new], [new]))
    return "\n".join(lines)


TICKS = "share q 1 1 oldest eager of 1,2,p,3,p,4,p,5\nsub q r\ntick q 0\nnext r\ntick q 1\ntick q 2\nnext r\ntick q 3\n"


def test_what_stays_is_what_would_be_made_anew(browser, folder):
    scripts, pick, page = Scripts(5), random.Random(5), Page(browser)
    page.tab.show_as(3000, 1600)
    for _ in range(6):
        script = f"{scripts.script()}\n{TICKS}"
        page.write(script)
        for _ in range(3):
            shown(page)
            script = edited(script, scripts, pick)
            page.write(script)
        kept = shown(page, 6)
        page.write("")
        page.write(script)
        same(f"after edits:\n{script}\n", kept, shown(page, 6))
    page.close()


# Marks all that is shown; and how much is shown that isn't marked.
MARK = """(() => { for (const it of %s) it.isOld = true; })()"""
NEW = """%s.filter((it) => !it.isOld).length"""
ELEMENTS = "[...document.querySelector('.picture').shadowRoot.querySelectorAll('svg *'), ...document.querySelectorAll('#answers *, #gutter *, .pipe *')]"


def test_a_key_makes_no_more_than_what_is_another(browser, folder):
    page = Page(browser)
    page.tab.show_as(1200, 900)
    script = long_script(298) + "cold of 1,2 | add 1\ntry f 5"
    page.write(script)
    page.caret(len(script))
    for typed, most in (("6", 40), ("\n", 1), ("#", 0)):
        shown(page)
        page.tab.ask(MARK % ELEMENTS)
        page.tab.type(typed)
        page.rest()
        count = page.tab.ask(NEW % ELEMENTS)
        same(f"{typed!r} makes at most {most} of {page.tab.ask(f'{ELEMENTS}.length')} elements anew: {count}", count <= most, True)
    page.close()
