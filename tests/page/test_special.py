"""Runs that are out of the ordinary: a listing that differs, no record at all, file refusals, long files."""

import os
import re

from selenium.webdriver.common.keys import Keys

from listings import fields, refusal_rows, steps
from pages import CHAPTERS, EXAMPLES, GENERATED, INDEX, LONG, MADE, PageTest, run_of

CHANGED = MADE / "special/changed.html"
MOST_BYTES = 3_000_000


class Differing(PageTest):
    """Lines 8 and 10 were changed, and line 19 is one too many."""

    def test_it_says_so(self):
        self.browser.open(CHANGED)
        self.assertEqual(self.browser.find("#different").text, "The second program differs from the proved listing in 3 lines, in red below.")
        said = (MADE / "special/changed.said").read_text(encoding="utf-8")
        self.assertEqual(said, "the second program differs from the proved listing in 3 line(s), in red on the page\n")

    def test_the_lines_are_marked(self):
        self.browser.open(CHANGED)
        self.browser.run("document.querySelector('#lines').scrollTop = 10000")
        self.browser.until(lambda: self.marked() == [8, 10, 19], "three lines are marked")

    def marked(self):
        return self.browser.run("return [...document.querySelectorAll('#lines .differs')].map((item) => Number(item.ariaPosInSet))")

    def test_the_step_tells_both(self):
        whole = "The second program differs from the proved listing in 3 lines, in red below."
        second = 'This line differs: the second program has "{}\\n"'
        for address, line, red in [
            ("#8", "8 recheck free:2.1 2 24", [second.format("8 recheck still 2 24")]),
            ("#9", "9 recheck still 2 22", []),
            ("#10", "10 pick free:2.1 1 -", [second.format("10 pick free:2.1 0 -"), "The sum is 0, and the listing has 1."]),
            ("#19", "19 pick nothing 0 -", ["This line differs: the second program has no such line"]),
        ]:
            self.browser.open(CHANGED, address)
            shown = self.browser.read()
            self.assertEqual(shown["line"], line)
            self.assertEqual(shown["answer"], fields(line).answer)
            self.assertEqual(shown["red"], [whole, *red])

    def test_the_state_is_the_second_programs(self):
        self.browser.open(CHANGED, "#8")
        self.assertEqual([card["state"] for card in self.browser.read()["cards"]], ["Blocked", "Blocked"])

    def test_an_answer_that_differs_is_not_explained(self):
        for address, priced in [("#7", True), ("#8", False), ("#9", True), ("#10", True)]:
            self.browser.open(CHANGED, address)
            shown = self.browser.read()
            self.assertEqual(shown["meaning"] != "", address in ("#7", "#9"), address)
            self.assertEqual((shown["price"] != "", self.browser.find("#price-name").is_displayed()), (priced, priced), address)

    def test_a_header_and_a_tank_that_differ(self):
        self.browser.open(MADE / "special/left.html", "#9")
        header = "The second program differs from the proved listing in 2 lines, in red below. The header: "
        self.assertEqual(self.browser.read()["red"], [
            header + 'the second program has "no call answer burnt left\\n"',
            'This line differs: the second program has "9 recheck still 2 22\\n"', "The tank has 22, and the listing has 21."])
        self.assertIn("differs", self.browser.find("#header").get_attribute("class").split())

    def test_the_quiz_goes_through(self):
        self.browser.open(CHANGED, "#7")
        self.browser.click("#ask")
        for _ in range(8, 19):
            self.browser.press(Keys.ARROW_RIGHT)
            self.browser.click("#give-up")
        self.browser.press(Keys.ARROW_RIGHT)
        self.assertEqual(self.browser.read()["line"], "19 pick nothing 0 -")


class Special(PageTest):
    def test_no_record(self):
        self.browser.open(MADE / "special/empty.html")
        self.assertTrue(self.browser.find("#empty").is_displayed())
        for selector in ("#columns", "#chart", "#bar", "#different"):
            self.assertFalse(self.browser.find(selector).is_displayed(), selector)
        self.browser.press(Keys.ARROW_RIGHT)

    def test_file_refusals(self):
        """The last step of a file that is not read to its end says why, by the row of the table."""
        rows = refusal_rows()
        seen = set()
        for page in GENERATED:
            wanted = steps(run_of(page))
            line = fields(wanted[-1].line) if wanted else None
            if not line or line.call != "file":
                continue
            number = re.fullmatch(r"refused:(\d+)", line.answer)[1]
            seen.add(number)
            self.browser.open(page, f"#{len(wanted)}")
            shown = self.browser.read()
            self.assertIn(f"Refusal {number}: {rows[('file', number)][0]}.", shown["meaning"])
            self.assertEqual(shown["price"], "A file refusal burns nothing.")
            self.assertIn("The file is not read any further.", shown["call"])
        self.assertGreaterEqual(seen, {"20", "21", "22", "23"})
        self.browser.open(MADE / "special/large.html")
        self.assertIn(f"Refusal 24: {rows[('file', '24')][0]}.", self.browser.read()["meaning"])

    def test_a_refused_open(self):
        self.browser.open(MADE / "special/closed.html")
        shown = self.browser.read()
        self.assertEqual(shown["call"], "Step 1: The host asks for a fresh state with 60 places for tenant 1 and 5 places for tenant 2.")
        self.assertEqual(shown["meaning"], "The state is a fresh one all the same, in which every share is 0.")
        self.assertEqual(shown["parts"], [[0, "0 for refusal 14 by the table: not exactly 16 shares, or more than 64 places in all"]])
        self.assertEqual((self.browser.find("#tanks-name").text, shown["tanks"]), ("No tenant has a place or fuel", []))

    def test_long_files_open(self):
        self.assertEqual([page.stem for page in LONG], ["long-picks", "long-queues", "long-scans"])
        for page in LONG:
            with self.subTest(page=page.name):
                self.assertLess(os.path.getsize(page), MOST_BYTES)
                wanted = steps(run_of(page))
                self.browser.open(page)
                self.is_at(1)
                self.browser.press(Keys.END)
                shown = self.is_at(len(wanted))
                self.assertEqual(shown["line"], wanted[-1].line)
                self.browser.run("location.hash = '#3000'")
                self.assertEqual(self.is_at(3000)["line"], wanted[2999].line)
        self.assertEqual(max(len(steps(run_of(page))) for page in LONG), 21_840)

    def test_nothing_is_fetched(self):
        for page in [*EXAMPLES, *CHAPTERS, INDEX]:
            self.browser.open(page)
            self.assertEqual(self.browser.run("return performance.getEntriesByType('resource').map(({ name }) => name)"), [], page.name)

    def test_the_pages_of_the_command_are_the_examples(self):
        """bin/lockrun --page puts the comments of a text beside its calls."""
        self.browser.open(MADE / "examples/front.html", "#8")
        self.assertEqual(self.browser.read()["said"], ["Cx of 10 is 2: one for 2.1, one for 1.2 behind it"])
        self.assertEqual(self.browser.find("#run-name").text, "The run of front.txt")
