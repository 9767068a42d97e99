"""Where the pages are that the tests open, and the browser that opens them, one for all tests."""

import os
import unittest
from pathlib import Path

from browser import Browser
from listings import ROOT

MADE = Path(os.environ["PAGES"])
PICTURES = MADE / "pictures"
EXAMPLES = sorted((MADE / "examples").glob("*.html"))
GENERATED = sorted((MADE / "generated").glob("*.html"))
LONG = sorted((MADE / "long").glob("*.html"))
CHAPTERS = sorted((ROOT / "docs/lesson").glob("[0-9]*.html"))
INDEX = ROOT / "docs/lesson/index.html"

_open = []


def browser():
    if not _open:
        _open.append(Browser())
    return _open[0]


def close():
    while _open:
        _open.pop().close()


def run_of(page):
    """The path, without its ending, of the listing and the view of a page's run."""
    if page in CHAPTERS:
        return MADE / "examples" / page.stem.split("-", 1)[1]
    return page.with_suffix("")


def on_each_other(boxes):
    """The pairs of boxes (left, right, top, bottom) whose letters lie on each other: a line of letters is less high than its box."""
    return [(one, other) for at, one in enumerate(boxes) for other in boxes[:at]
            if one[0] < other[1] and other[0] < one[1] and one[2] + 4 < other[3] and other[2] + 4 < one[3]]


class PageTest(unittest.TestCase):
    """A test in the browser: wide and light to begin with, and without a message in the console at its end."""

    maxDiff = None

    def setUp(self):
        self.browser = browser()
        self.browser.resize(1280)
        self.browser.colours("light")
        self.browser.messages()

    def tearDown(self):
        self.assertEqual(self.browser.messages(), [], "the console has messages")

    def is_at(self, step):
        """The step is shown, by all that tells which one it is."""
        self.browser.until(lambda: self.browser.read()["at"] == step, f"step {step} is shown")
        shown = self.browser.read()
        self.assertRegex(shown["call"], rf"^Step {step}: ")
        self.assertRegex(shown["line"], rf"^{step} ")
        self.assertRegex(shown["announced"], rf"^Step {step} of \d+\. ")
        self.browser.until(lambda: self.browser.address() == str(step), f"the address is #{step}")
        return shown
