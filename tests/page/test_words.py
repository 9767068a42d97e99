"""What the page says of each kind of call and answer, in `words.said`, which was read and found right."""

from pathlib import Path

from selenium.webdriver.common.keys import Keys

from listings import steps
from pages import MADE, PageTest, run_of

PAGE = MADE / "special/words.html"
SAID = Path(__file__).with_name("words.said")


class Words(PageTest):
    def test_every_sentence(self):
        self.browser.open(PAGE)
        self.assertEqual(self.said(), SAID.read_text(encoding="utf-8").splitlines())

    def said(self):
        """Of each step its line, and below it what is said of the call, its answer, its price and each Blocked request."""
        rows = []
        for _ in steps(run_of(PAGE)):
            shown = self.browser.read()
            waiting = [f"{card['name']}: {card['why']}" for card in shown["cards"] if card["why"]]
            told = [shown["call"].split(": ", 1)[1], shown["meaning"], *shown["price"].splitlines(), *waiting]
            rows += [shown["line"], *[f"    {words}" for words in told if words]]
            self.browser.press(Keys.ARROW_RIGHT)
        return rows
