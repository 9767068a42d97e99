"""How the queue and the counters are drawn: lines from card to card, what is marked, and what is in sight."""

from selenium.webdriver.common.action_chains import ActionChains
from selenium.webdriver.common.keys import Keys

from browser import NARROW, WIDE
from listings import steps
from pages import MADE, PageTest, on_each_other, run_of

FRONT = MADE / "examples/front.html"
HUNG = MADE / "examples/hung.html"
FULL = MADE / "generated/deep-2.html"
LABELLED = [HUNG, *[MADE / f"generated/{name}.html" for name in ("boundary-20", "overlap-5", "remote-11", "worst-17")]]

# Of each line: who waits for whom, and on which cards it begins, ends, and has its head.
LINES = """
const cardAt = (y) => [...document.querySelectorAll('.card')].find((card) => {
  const { top, bottom } = card.getBoundingClientRect();
  return top <= y && y <= bottom;
})?.dataset.name;
const { top } = document.querySelector('#conflicts').getBoundingClientRect();
return [...document.querySelectorAll('.conflict')].map((line) => [
  line.dataset.from, line.dataset.to,
  cardAt(top + line.getPointAtLength(0).y), cardAt(top + line.getPointAtLength(line.getTotalLength()).y),
  cardAt(top + line.nextElementSibling.getBBox().y + 4), getComputedStyle(line).stroke !== 'none']);
"""

# At each step of a run: the border, where the cards begin, where the labels stand, and where each line has one the lines' middles.
LABELS = """
const sides = (found) => (({ left, right, top, bottom }) => [left, right, top, bottom])(found.getBoundingClientRect());
const middle = (line) => (({ x, y }) => [x, y])(line.getPointAtLength(line.getTotalLength() / 2).matrixTransform(line.getScreenCTM()));
const found = [];
for (let at = 1; at <= document.querySelector('#at').max; at += 1) {
  if (at > 1) document.querySelector('#forward').click();
  const [labels, lines] = ['.on', '.conflict'].map((kind) => [...document.querySelectorAll(kind)]);
  const [[border], [cards]] = ['#queue', '#cards'].map((part) => sides(document.querySelector(part)));
  found.push([border, cards, labels.map(sides), lines.length === labels.length ? lines.map(middle) : []]);
}
return found;
"""


class Lines(PageTest):
    def check_lines(self):
        found = self.browser.run(LINES)
        self.assertGreater(len(found), 0)
        for waits, ahead, *drawn in found:
            self.assertEqual(drawn, [waits, ahead, ahead, True])

    def test_from_card_to_card(self):
        for page, address in [(FRONT, "#6"), (HUNG, "#9"), (FULL, "#120")]:
            self.browser.open(page, address)
            self.check_lines()

    def test_they_follow_the_window(self):
        self.browser.open(HUNG, "#9")
        self.browser.resize(NARROW)
        self.browser.until(lambda: self.browser.run("return document.querySelector('#drawing svg').clientWidth < 400"), "it is laid out")
        self.check_lines()

    def test_they_follow_what_is_unfolded(self):
        self.browser.open(FULL, "#120")
        folds = self.browser.find_all("#cards summary")[:3]
        for fold in folds:
            self.browser.run("arguments[0].click()", fold)
        self.browser.until(lambda: self.browser.run("return document.querySelectorAll('#cards details[open]').length") == 3, "they are open")
        self.browser.run("return new Promise((done) => requestAnimationFrame(() => requestAnimationFrame(() => done(true))))")
        self.check_lines()

    def test_the_card_under_the_pointer_keeps_its_own(self):
        self.browser.open(FRONT, "#6")
        card = self.browser.find(".card[data-name='1.1']")
        self.browser.run("arguments[0].scrollIntoView({ block: 'center' })", card)
        ActionChains(self.browser.driver).move_to_element(card).perform()
        self.assertEqual(self.lines("faded"), [["1.2", "2.1"]])
        self.assertEqual(self.lines("kept"), [["2.1", "1.1"], ["1.2", "1.1"]])

    def lines(self, kind):
        return self.browser.run(
            "return [...document.querySelectorAll(`.conflict.${arguments[0]}`)].map(({ dataset }) => [dataset.from, dataset.to])", kind)

    def test_labels_can_be_read(self):
        """At no step does a label lie on another or under a card, or is cut off; where each line has one, it stands by the line's middle."""
        for width in (WIDE, NARROW):
            self.browser.resize(width)
            for page in LABELLED:
                self.browser.open(page)
                found = self.browser.run(LABELS)
                self.assertGreater(max(len(labels) for _, _, labels, _ in found), 3)
                for at, (border, cards, labels, middles) in enumerate(found, 1):
                    with self.subTest(width=width, page=page.name, step=at):
                        self.check_labels(border, cards, labels, middles)

    def check_labels(self, border, cards, labels, middles):
        self.assertEqual(on_each_other(labels), [])
        for left, right, _, _ in labels:
            self.assertTrue(border - 0.5 <= left and right <= cards + 0.5, (left, right))
        for (left, right, top, bottom), (x, y) in zip(labels, middles):
            self.assertTrue(left - 1 <= x <= right + 1 and abs(y - (top + bottom) / 2) <= 30, (left, right, top, bottom, x, y))


class Marks(PageTest):
    def test_the_entry_named_is_in_sight(self):
        self.browser.open(FULL)
        for step in steps(run_of(FULL)):
            self.assertTrue(self.browser.run(
                "const card = document.querySelector('.card.touched');"
                "if (!card) return true;"
                "const [box, own] = [document.querySelector('#queue'), card].map((found) => found.getBoundingClientRect());"
                "return box.top <= own.top && own.bottom <= box.bottom"), step.line)
            self.browser.press(Keys.ARROW_RIGHT)

    def test_what_is_marked_looks_so(self):
        self.browser.open(FRONT, "#8")
        self.assertEqual(self.browser.run(
            "const style = (selector) => getComputedStyle(document.querySelector(selector));"
            "return [style('.card.touched').boxShadow !== 'none', style('.tank.touched').boxShadow !== 'none',"
            " style('.cell.touched').outlineStyle, style('#lines [aria-current]').fontWeight, style('#lines a:not([aria-current])').fontWeight]"),
            [True, True, "solid", "700", "400"])

    def test_the_grids_number_their_records(self):
        self.browser.open(FRONT)
        for grid in ("cx", "cs"):
            edges = self.browser.run("return [...document.querySelectorAll(`#${arguments[0]} .edge`)].map(({ textContent }) => textContent)", grid)
            self.assertEqual(edges, ["", *[f"+{at}" for at in range(16)], *[f"{at}" for at in range(0, 256, 16)]])
            self.assertTrue(self.browser.run(
                "return [...document.querySelectorAll(`#${arguments[0]} .cell`)].every(({ dataset, title }, record) =>"
                " dataset.record === `${record}` && title.startsWith(`record ${record}: `))", grid))
            # A cell stands in the row and below the number that sum up to its record.
            self.assertTrue(self.browser.run(
                "const [corner, ...edges] = document.querySelectorAll(`#${arguments[0]} .edge`);"
                "return [...document.querySelectorAll(`#${arguments[0]} .cell`)].every((cell, record) => {"
                " const [own, above, beside] = [cell, edges[record % 16], edges[16 + Math.floor(record / 16)]].map((found) => found.getBoundingClientRect());"
                " return Math.abs(own.left - above.left) < 1 && Math.abs(own.top - beside.top) < 1; })", grid))
