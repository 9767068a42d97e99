"""The quiz: what comes is hidden until the student has chosen, and right answers are counted."""

import re

from selenium.webdriver.common.keys import Keys

from listings import fields, refusal_rows, steps
from pages import CHAPTERS, EXAMPLES, GENERATED, MADE, PageTest, run_of

FRONT = MADE / "examples/front.html"


def choice(line):
    """The choice that an answer of the listing is."""
    plain = line.answer.split("@")[0]
    return plain if line.call == "scan" or plain.startswith("refused") else plain.split(":")[0]


class Quiz(PageTest):
    def ask(self, page, address=""):
        self.browser.open(page, address)
        self.browser.click("#ask")

    def choose(self, answer, units):
        found = self.browser.run(
            "const found = [...document.querySelectorAll('#question [name=answer]')].find(({ value }) => value === arguments[0]);"
            "if (found) found.click(); return Boolean(found)", answer)
        self.assertTrue(found, f"no choice {answer}")
        self.browser.find("#question [name=units]").send_keys(units)
        self.browser.click("#question [type=submit]")

    def test_every_answer_is_among_the_choices(self):
        """With the right answers given throughout, all are counted."""
        refused = [page for page in GENERATED if re.match("refusals|boundary-(9|14|18)", page.name)]
        for page in [*EXAMPLES, CHAPTERS[0], *refused]:
            with self.subTest(page=page.name):
                self.ask(page)
                asked = 0
                for number, step in enumerate(steps(run_of(page))[1:], 2):
                    self.browser.press(Keys.ARROW_RIGHT)
                    line = fields(step.line)
                    shown = self.browser.read()
                    self.assertEqual(shown["at"], number)
                    self.assertEqual(shown["asks"], line.call != "file")
                    if shown["asks"]:
                        self.check_hidden(step.line, shown)
                        self.choose(choice(line), line.burnt)
                        asked += 1
                        shown = self.browser.read()
                        self.assertEqual(shown["verdict"], "Answer: right. Units: right.")
                    self.assertEqual(shown["line"], step.line)
                plural = "s" if asked != 1 else ""
                self.assertEqual(self.browser.read()["score"], f"right: {asked} of {asked} answer{plural}, {asked} of {asked} price{plural}")

    def check_hidden(self, line, shown):
        number, call, *_ = line.split(" ")
        self.assertEqual(shown["line"], f"{number} {call} ? ? ?")
        hidden = [shown[name] for name in ("answer", "burnt", "left", "whose", "meaning", "price", "verdict")]
        self.assertEqual(hidden, [""] * len(hidden))
        self.assertEqual(shown["now"], shown["line"])
        self.assertNotIn(line, self.browser.run("return document.body.innerText"))
        self.assertTrue(all(card["looked"] == card["why"] == "" for card in shown["cards"]))
        self.assertNotIn("Answer", shown["announced"])

    def test_the_state_is_that_before_the_call(self):
        self.browser.open(FRONT, "#9")
        before = self.browser.read()
        self.browser.click("#ask")
        self.browser.press(Keys.ARROW_RIGHT)
        asked = self.browser.read()
        self.assertTrue(asked["asks"])
        for name in ("cx", "cs"):
            self.assertEqual(asked[name], before[name])
        for name in ("tanks", "cards"):
            unmarked = [[{**part, "why": "", "touched": False} for part in shown[name]] for shown in (asked, before)]
            self.assertEqual(*unmarked)
        self.assertEqual(asked["conflicts"], before["conflicts"])
        for part, name in [("queue", "The queue before the call: 2 requests, front first"), ("tanks", "Tanks and places before the call"), ("counters", "Counters before the call")]:
            self.assertEqual(self.browser.find(f"#{part}-name").text, name)

    def test_wrong_answers_and_giving_up(self):
        self.ask(FRONT, "#7")
        self.browser.press(Keys.ARROW_RIGHT)
        self.choose("free", "2")
        self.assertEqual(self.browser.read()["verdict"], "Answer: not Free. Units: right.")
        self.assertEqual(self.browser.read()["score"], "right: 0 of 1 answer, 1 of 1 price")
        self.browser.press(Keys.ARROW_RIGHT)
        self.choose("still", "0")
        self.assertEqual(self.browser.read()["verdict"], "Answer: right. Units: not 0.")
        self.browser.press(Keys.ARROW_RIGHT)
        self.browser.click("#give-up")
        shown = self.browser.read()
        self.assertEqual(shown["verdict"], "Shown, and not counted as right.")
        self.assertEqual(shown["answer"], "free:2.1")
        self.assertEqual(shown["score"], "right: 1 of 3 answers, 1 of 3 prices")
        self.browser.press(Keys.ARROW_RIGHT)
        self.choose("nothing", "1")
        self.assertEqual(self.browser.read()["verdict"], "Answer: right. Units: not 1.")
        self.assertEqual(self.browser.read()["score"], "right: 2 of 4 answers, 1 of 4 prices")

    def test_nothing_is_checked_before_both_are_chosen(self):
        self.ask(FRONT, "#7")
        self.browser.press(Keys.ARROW_RIGHT)
        self.browser.click("#question [type=submit]")
        self.assertTrue(self.browser.read()["asks"])
        self.browser.click("#question [value=still]")
        self.browser.click("#question [type=submit]")
        self.assertTrue(self.browser.read()["asks"])
        self.assertEqual(self.browser.read()["score"], "asks from step 8 on")

    def test_what_was_begun_stays(self):
        """A key that leads on is stopped at the question, and does not clear it."""
        self.ask(FRONT, "#7")
        self.browser.press(Keys.ARROW_RIGHT)
        self.browser.click("#question [value=still]")
        self.browser.click("#forward")
        self.assertTrue(self.browser.find("#question [value=still]").is_selected())
        self.browser.press(Keys.ARROW_LEFT)
        self.assertEqual(self.browser.read()["line"], "7 finish done 0 22")
        self.browser.press(Keys.ARROW_RIGHT)
        self.assertTrue(self.browser.find("#question [value=still]").is_selected())

    def test_at_the_end_it_asks_from_the_beginning(self):
        self.ask(FRONT, "#18")
        shown = self.browser.read()
        self.assertEqual((shown["at"], shown["score"]), (1, "asks from step 2 on"))
        self.browser.press(Keys.ARROW_RIGHT)
        self.assertEqual(self.browser.read()["line"], "2 grant ? ? ?")

    def test_no_step_is_passed_over(self):
        self.ask(FRONT, "#7")
        for leap in ("document.querySelector('#last').click()", "location.hash = '#15'"):
            self.browser.run(leap)
            self.browser.until(lambda: self.browser.read()["at"] == 8, "step 8 comes first")
            self.assertTrue(self.browser.read()["asks"])
            self.browser.click("#first")
            self.assertFalse(self.browser.read()["asks"])
            self.assertEqual(self.browser.read()["line"], "1 open ok 0 -")
        self.browser.until(lambda: self.browser.address() == "1", "the address follows")

    def test_the_chart_and_the_listing_do_not_tell(self):
        self.ask(FRONT, "#7")
        start, width = self.browser.run(
            "const cover = document.querySelector('.cover');"
            "return [Number(cover.getAttribute('x')), Number(cover.getAttribute('width'))]")
        whole = self.browser.run("return document.querySelector('#drawing svg').clientWidth")
        border = 36 + (whole - 36) * 7 / 18
        self.assertTrue(border - 3 < start < border - 1, "the cover hides where the lines turn, and little more")
        self.assertAlmostEqual(start + width, whole, delta=1)
        self.assertNotIn("admitted", self.browser.find("#chart-said").text)
        lines = self.browser.run("return [...document.querySelectorAll('#lines li')].map((item) => item.innerText)")
        wanted = [step.line if number <= 7 else f"{number} {fields(step.line).call} ? ? ?" for number, step in enumerate(steps(run_of(FRONT)), 1)]
        self.assertEqual(lines, wanted[:len(lines)])

    def test_the_cover_covers(self):
        self.ask(FRONT, "#7")
        fill, ground = self.browser.run(
            "return [getComputedStyle(document.querySelector('.cover')).fill, getComputedStyle(document.querySelector('#chart')).backgroundColor]")
        self.assertEqual(fill, ground)
        # The title of a bar tells when its request will be gone.
        self.browser.run("document.querySelector('#chart').scrollIntoView()")
        self.assertTrue(self.browser.run(
            "return [...document.querySelectorAll('.request rect')].every((bar) => {"
            " const { x, y, height } = bar.getBoundingClientRect();"
            " return !document.elementFromPoint(x + 1, y + height / 2).closest('.request'); })"))

    def test_marks_do_not_tell(self):
        """Whom a Begin, a Scan or a Pick will be about is part of the answer."""
        for page in EXAMPLES:
            self.ask(page)
            for _ in steps(run_of(page))[1:]:
                self.browser.press(Keys.ARROW_RIGHT)
                shown = self.browser.read()
                if shown["typed"].split()[0] in ("begin", "scan", "pick"):
                    marked = [card["name"] for card in shown["cards"] if card["touched"]]
                    self.assertEqual((marked, shown["cxMarked"], shown["csMarked"]), ([], [], []), (page.name, shown["at"]))
                self.browser.click("#give-up")

    def test_the_choices_are_the_tables_refusals_and_the_callers_requests(self):
        rows = refusal_rows()
        for page in [MADE / "examples/hung.html", MADE / "generated/refusals-25.html"]:
            self.ask(page)
            for step in steps(run_of(page))[1:]:
                call = fields(step.line).call
                self.browser.press(Keys.ARROW_RIGHT)
                found = self.browser.run("return [...document.querySelectorAll('#question fieldset label')].map((label) => label.innerText.trim())")
                wanted = {f"refused: {number}, {meaning}" for (kind, number), (meaning, _) in rows.items() if kind == call and number != "15"}
                self.assertEqual({words for words in found if words.startswith("refused")}, wanted, call)
                if call == "scan":
                    self.assertEqual([words for words in found if not words.startswith("refused")], self.found_by_scan())
                self.browser.click("#give-up")

    def found_by_scan(self):
        """What a search may say: of each Blocked request of the caller what it becomes, or nothing."""
        shown = self.browser.read()
        tenant = shown["typed"].split()[1]
        own = [card["name"] for card in shown["cards"] if card["state"] == "Blocked" and card["name"].startswith(f"{tenant}.")]
        return [*[f"{name} is {state}" for name in own for state in ("Free", "Waiting")], "nothing"]

    def test_another_refusal_is_wrong(self):
        self.ask(MADE / "examples/stock.html", "#7")
        self.browser.press(Keys.ARROW_RIGHT)
        self.choose("refused:1", "1")
        self.assertEqual(self.browser.read()["verdict"], "Answer: not refused: 1, the tenant number is not 1 to 16. Units: right.")

    def test_the_verdict_stays_with_its_step(self):
        self.ask(FRONT, "#7")
        self.browser.press(Keys.ARROW_RIGHT)
        self.browser.click("#give-up")
        self.browser.press(Keys.ARROW_LEFT)
        self.assertEqual(self.browser.read()["verdict"], "")

    def test_what_differs_is_not_told(self):
        self.ask(MADE / "special/changed.html", "#7")
        self.browser.press(Keys.ARROW_RIGHT)
        self.assertEqual(len(self.browser.read()["red"]), 1)
        self.assertEqual(self.browser.find_all("#lines .differs"), [])

    def test_the_excerpts_of_each_chapter(self):
        excerpts = 0
        for page in CHAPTERS:
            self.browser.open(page)
            wanted = [max(int(step) for step in re.findall(r'href="#(\d+)"', part.get_attribute("innerHTML")))
                      for part in self.browser.find_all(".prose:not(.told) pre:has(a)")]
            self.browser.click("#ask")
            words = [word.get_attribute("textContent") for word in self.browser.find_all(".prose:not(.told) .untold")]
            self.assertEqual(words, [f"Told after step {step}." for step in wanted], page.name)
            excerpts += len(wanted)
        self.assertGreater(excerpts, 0)

    def test_the_box_taken_away_shows_all(self):
        self.ask(FRONT, "#6")
        self.browser.press(Keys.ARROW_RIGHT)
        self.choose("done", "0")
        self.assertEqual(self.browser.read()["score"], "right: 1 of 1 answer, 1 of 1 price")
        self.browser.press(Keys.ARROW_RIGHT)
        self.assertTrue(self.browser.read()["asks"])
        self.browser.click("#ask")
        shown = self.browser.read()
        self.assertEqual((shown["asks"], shown["answer"], shown["score"]), (False, "still", ""))
        # Ticked again, it begins anew behind the step that is shown, and counts from nothing.
        self.browser.click("#ask")
        self.assertEqual(self.browser.read()["score"], "asks from step 9 on")
        self.browser.press(Keys.ARROW_RIGHT)
        self.assertEqual(self.browser.read()["line"], "9 recheck ? ? ?")

    def test_by_the_keyboard_alone(self):
        self.browser.open(FRONT, "#7")
        self.browser.run("document.querySelector('#ask').focus()")
        self.browser.press(Keys.SPACE)
        self.browser.press(Keys.ARROW_RIGHT)
        # On to the first choice, down to the third, on to the units, and Enter.
        self.browser.press(Keys.TAB, Keys.SPACE, Keys.ARROW_DOWN, Keys.ARROW_DOWN)
        self.browser.press(Keys.TAB)
        self.browser.press("2", Keys.ENTER)
        shown = self.browser.read()
        self.assertEqual(shown["verdict"], "Answer: right. Units: right.")
        self.assertIn("Answer: right. Units: right. Answer still, burnt 2, left 24.", shown["announced"])
        self.browser.press(Keys.ENTER)
        self.assertEqual(self.browser.read()["line"], "9 recheck ? ? ?")

    def test_a_chapter_does_not_tell_what_comes(self):
        """What its text says of a step is hidden up to that step, and what happens up to the last."""
        self.browser.open(CHAPTERS[0], "#6")
        excerpt, happens = self.browser.find(".prose pre:has(a)"), self.browser.find("#run ~ .prose")
        self.assertTrue(excerpt.is_displayed() and happens.is_displayed())
        self.browser.click("#ask")
        self.assertFalse(excerpt.is_displayed() or happens.is_displayed())
        self.assertEqual([found.text for found in self.browser.find_all(".untold")], ["Told after step 7.", "Told after step 18."])
        self.browser.press(Keys.ARROW_RIGHT)
        self.choose("done", "0")
        self.assertTrue(excerpt.is_displayed())
        for _ in range(8, 19):
            self.assertFalse(happens.is_displayed())
            self.browser.press(Keys.ARROW_RIGHT)
            self.browser.click("#give-up")
        self.assertTrue(happens.is_displayed())
        self.assertEqual([found for found in self.browser.find_all(".untold") if found.is_displayed()], [])

    def test_units_with_a_leading_zero(self):
        self.ask(FRONT, "#7")
        self.browser.press(Keys.ARROW_RIGHT)
        self.choose("still", "02")
        self.assertEqual(self.browser.read()["verdict"], "Answer: right. Units: right.")
