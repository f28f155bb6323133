"""What the tests of the page stand on: the page in a tab, by what a reader sees and does, and the native programs beside it."""

import base64
import hashlib
import http.server
import itertools
import json
import pathlib
import re
import subprocess
import sys

PAGE = pathlib.Path(__file__).resolve().parent
ROOT = PAGE.parent
INDEX = PAGE / "index.html"
PROGRAMS = ("flow_marbles", "flow_runner")
ENGINES = ("core", "lane")
MOST_BYTES = 1048576
ALT, CONTROL, SHIFT = 1, 2, 8
# A module with a memory of 64-bit addresses and a function `run` that traps.
TRAPPING = bytes.fromhex(
    "0061736d01000000"
    "010501600001" "7f"
    "030201" "00"
    "0503010401"
    "0710" "02" "066d656d6f7279" "0200" "0372756e" "0000"
    "0a050103" "00" "000b"
)


def stop(why):
    print(f"page/test: {why}", file=sys.stderr)
    sys.exit(2)


def native(name, engine, script):
    """What the native program writes for a script."""
    return subprocess.run([ROOT / "crates" / name / "out" / name, engine], input=script.encode(), capture_output=True).stdout.decode()


def needs_programs(test):
    """Marks a test that holds the page against the native programs."""
    test.needs_programs = True
    return test


def programs_are_there():
    return all((ROOT / "crates" / it / "out" / it).exists() for it in PROGRAMS)


def lines_with_answers(script):
    """The numbers of the lines that have an answer."""
    words = [line.split(" ") for line in script.split("\n")]
    firsts = [next(filter(None, it), "#") for it in words]
    return [number for number, first in enumerate(firsts, 1) if not first.startswith("#")]


def same(what, seen, wanted):
    if seen != wanted:
        raise AssertionError(f"{what}\n  seen:   {str(seen)[:600]}\n  wanted: {str(wanted)[:600]}")


def examples():
    return [it for group in json.loads((PAGE / "source/examples.json").read_text()) for it in group["examples"]]


def text_of(example):
    return (ROOT / example["file"]).read_text()


# ---- A page ----

# Keeps the pictures that are saved, as they are handed to the browser.
KEEP_SAVED = """
window.saved = [];
const make = URL.createObjectURL;
URL.createObjectURL = (blob) => {
  if (blob.type === "image/svg+xml") window.saved.push(blob.text());
  return make.call(URL, blob);
};
"""


class Page:
    """The page in a tab, by what a reader sees and does."""

    def __init__(self, browser, address=INDEX.as_uri(), before=""):
        self.tab = browser.open(address, KEEP_SAVED + before)
        self.rest()

    def rest(self):
        self.tab.wait_for("document.getElementById('results')?.getAttribute('aria-busy') === 'false'")

    def read(self, selector):
        return self.tab.ask(f"document.querySelector({json.dumps(selector)}).textContent.replace(/\\s+/g, ' ').trim()")

    def script(self):
        return self.tab.ask("document.getElementById('script').value")

    def begin(self, script):
        """Puts a script into the field as typing would, and doesn't wait for what it gives."""
        self.tab.ask(f"(() => {{ const field = document.getElementById('script'); field.value = {json.dumps(script)};"
                     " field.dispatchEvent(new Event('input', { bubbles: true })); })()")

    def write(self, script):
        self.begin(script)
        self.rest()

    def caret(self, place):
        """Puts the caret behind so many characters of the field."""
        self.tab.ask(f"(() => {{ const field = document.getElementById('script'); field.focus(); field.setSelectionRange({place}, {place}); }})()")

    def focus_mark(self, label):
        """Gives the focus to the mark whose label begins so."""
        self.tab.ask(f"""[...document.querySelector('.picture').shadowRoot.querySelectorAll('.mark')]
          .find((it) => it.getAttribute('aria-label').startsWith({json.dumps(label)})).focus()""")

    def choose_engine(self, engine):
        self.tab.ask(f"document.querySelector('input[value={engine}]').click()")
        self.rest()

    def choose_example(self, name):
        self.tab.ask(f"(() => {{ const list = document.getElementById('example'); list.value = {json.dumps(name)};"
                     " list.dispatchEvent(new Event('change', { bubbles: true })); })()")
        self.rest()

    def saved(self):
        """The pictures of flows that a click on each button to save hands over; pipes have buttons of their own."""
        self.tab.ask("window.saved.length = 0; document.querySelectorAll('figure:not(.pipe) > figcaption .save').forEach((it) => it.click())")
        return self.tab.ask("Promise.all(window.saved)")

    def table(self):
        """The rows of the answers: the texts of their cells."""
        return self.tab.ask("[...document.querySelectorAll('#answers tbody tr')].map((row) => [...row.cells].map((it) => it.textContent))")

    def focused(self):
        """What has the focus, within a picture too."""
        inner = "(document.activeElement.shadowRoot?.activeElement ?? document.activeElement)"
        return self.tab.ask(f"{inner}.getAttribute('aria-label') ?? {inner}.id")

    def close(self):
        self.tab.close()


def compare(page, script, what):
    """Holds the picture and the answers of the page against the native programs, on the engine that is chosen."""
    engine = page.tab.ask("document.querySelector('input[name=engine]:checked').value")
    same(f"{what} on {engine}: the picture", page.saved(), [native("flow_marbles", engine, script)])
    answers = native("flow_runner", engine, script).splitlines()
    wanted = list(zip(map(str, lines_with_answers(script)), answers, strict=True))
    same(f"{what} on {engine}: the answers", [(it[0], it[2]) for it in page.table()], wanted)


def changed_page(folder, name, *changes):
    """The address of a copy of the page in which each text, which stands there once, is another."""
    text = INDEX.read_text()
    for old, new in changes:
        same(f"{old[:60]} stands once", text.count(old), 1)
        text = text.replace(old, new)
    # The browser runs no script of another sum.
    script = re.search(r'<script type="module">(.*?)</script>', text, flags=re.DOTALL)[1]
    sum_of_script = base64.b64encode(hashlib.sha256(script.encode()).digest()).decode()
    text = re.sub(r"'sha256-[^']*'", f"'sha256-{sum_of_script}'", text, count=1)
    file = pathlib.Path(folder) / f"{name}.html"
    file.write_text(text)
    return file.as_uri()


class Server(http.server.SimpleHTTPRequestHandler):
    """Hands out the page, and says nothing."""

    def log_message(self, *words):
        pass


def long_script(lines):
    """A script of so many lines, of which every second value is received."""
    begin = ["shared f 1 2 oldest", "sub f a"]
    rest = (line for value in range(lines) for line in (f"try f {value % 97}", "next a"))
    return "\n".join([*begin, *itertools.islice(rest, lines - 2)]) + "\n"


# Whether the marks of the columns in sight are made: those at both sides of the frame have some.
made_around = """(() => {
  const host = document.querySelector('.picture'), root = host.shadowRoot;
  const frame = host.getBoundingClientRect(), names = root.querySelector('.names').getBoundingClientRect();
  const marks = [...root.querySelectorAll('.mark')].map((it) => it.getBoundingClientRect());
  const near = (x) => marks.some((it) => Math.abs((it.left + it.right) / 2 - x) < 120);
  return near(names.right + 60) && near(frame.right - 90);
})()"""
# Whether rows fill the frame of the answers.
rows_around = """(() => {
  const frame = document.querySelector('.answers').getBoundingClientRect();
  const rows = [...document.querySelectorAll('#answers tbody tr')].map((it) => it.getBoundingClientRect());
  const head = document.querySelector('#answers thead tr').getBoundingClientRect();
  return rows[0].top <= head.bottom + 1 && rows.at(-1).bottom >= frame.bottom - 2;
})()"""
# The milliseconds from a key in the field to the picture on the screen.
key_to_picture = """(async () => {
  document.getElementById('script').focus();
  await new Promise((done) => setTimeout(done, 400));
  const begun = performance.now();
  document.execCommand('insertText', false, '#');
  const results = document.getElementById('results');
  await new Promise((done) => { const look = () => (results.getAttribute('aria-busy') === 'false' ? done() : setTimeout(look, 1)); look(); });
  await new Promise((done) => requestAnimationFrame(() => setTimeout(done, 0)));
  return performance.now() - begun;
})()"""


def packed(name):
    return re.search(f'id="module-{name.replace("_", "-")}">([^<]*)', INDEX.read_text())[1]
