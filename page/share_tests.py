"""Tests of what is handed on: a frame, Markdown, a PNG."""

import html
import re

from harness import INDEX, Page, same
from kotlin_tests import copied_by

SCRIPT = "shared f 0 1 suspend\nsub f a\ntry f 1\ntry f 2\nnext a\n"
# What flow_marbles --text draws of it, laid out by hand by docs/PICTURES.md.
DRAWN = ("flow f", "sub a", "1#0", "!2")
KEEP_PNG = """
const keep = URL.createObjectURL;
URL.createObjectURL = (blob) => {
  if (blob.type === "image/png") window.png = blob;
  return keep.call(URL, blob);
};
"""


def test_a_frame_has_field_and_picture_alone(browser, folder):
    page = Page(browser)
    page.write(SCRIPT)
    words = copied_by(browser, page, "copy-frame", "The words for a frame are copied")
    page.close()
    address = html.unescape(re.fullmatch(r'<iframe src="([^"]*)" title="[^"]*" width="900" height="420" loading="lazy"></iframe>', words)[1])
    same("the address", address.startswith(f"{INDEX.as_uri()}#embed&script=shared"), True)
    page = Page(browser, address)
    page.tab.show_as(900, 420)
    same("the script", page.script(), SCRIPT)
    seen = lambda it: page.tab.ask(f"document.querySelector('{it}').getClientRects().length > 0")
    wanted = {"#script": True, ".picture": True, "#whole": True, "h1": False, ".wishes": False, "#answers": False, "#look": False, ".words": False}
    same("what is seen", {it: seen(it) for it in wanted}, wanted)
    same("it fits", page.tab.ask("document.documentElement.scrollWidth"), 900)
    page.caret(0)
    page.tab.type("# so\n")
    page.rest()
    page.tab.wait_for("location.hash.startsWith('#embed&script=%23+so')")
    page.close()


def test_script_and_picture_are_copied_as_markdown(browser, folder):
    page = Page(browser)
    page.write(f"# ```\n{SCRIPT}")
    text = copied_by(browser, page, "copy-markdown", "Script and picture are copied as Markdown")
    blocks = re.findall(r"^````\n(.*?)^````$", text, flags=re.DOTALL | re.MULTILINE)
    same("two blocks, the first of which is the script", (len(blocks), blocks[0]), (2, f"# ```\n{SCRIPT}"))
    same("the second is the picture", [it for it in DRAWN if it not in blocks[1]], [])
    page.close()


def test_a_picture_is_saved_as_a_png(browser, folder):
    page = Page(browser, before=KEEP_PNG)
    page.write(f"{SCRIPT}cold of 1,2 | twice\n")
    page.tab.wait_for("document.getElementById('pipes').getAttribute('aria-busy') === 'false'")
    for button, drawn in (("#pictures .save-png", "new DOMParser().parseFromString(await window.saved[0], 'image/svg+xml').documentElement"),
                          (".pipe .save-png", "document.querySelector('.pipe-picture').shadowRoot.querySelector('svg')")):
        page.tab.ask("window.saved.length = 0; window.png = undefined; document.querySelector('#pictures .save').click()")
        page.tab.ask(f"document.querySelector('{button}').click()")
        page.tab.wait_for("window.png !== undefined")
        sizes = page.tab.ask(f"""(async () => {{
          const picture = await createImageBitmap(window.png), svg = {drawn};
          return [picture.width, picture.height, 2 * svg.getAttribute('width'), 2 * svg.getAttribute('height')].map(Math.ceil);
        }})()""")
        same(f"twice as large as it is drawn, by {button}", sizes[:2], sizes[2:])
    page.close()
