"""Stepping by buttons, keys, listing, chart, address and links, with a pointer or by the keyboard alone."""

from selenium.webdriver.common.action_chains import ActionChains
from selenium.webdriver.common.keys import Keys

from listings import steps
from pages import CHAPTERS, INDEX, LONG, MADE, PageTest, run_of

FRONT = MADE / "examples/front.html"
LAST = 18


class Stepping(PageTest):
    def test_buttons(self):
        self.browser.open(FRONT)
        self.is_at(1)
        for button, step in [("forward", 2), ("forward", 3), ("back", 2), ("last", LAST), ("back", LAST - 1), ("first", 1)]:
            self.browser.click(f"#{button}")
            self.is_at(step)
        self.assertEqual(self.switched_off(), ["first", "back"])
        self.browser.click("#back")
        self.is_at(1)
        self.browser.click("#last")
        self.assertEqual(self.switched_off(), ["forward", "last"])

    def switched_off(self):
        return [found.get_attribute("id") for found in self.browser.find_all("button[aria-disabled=true]")]

    def test_keys(self):
        self.browser.open(FRONT)
        for key, step in [
            (Keys.ARROW_LEFT, 1), (Keys.ARROW_RIGHT, 2), (Keys.ARROW_RIGHT, 3), (Keys.ARROW_LEFT, 2),
            (Keys.END, LAST), (Keys.ARROW_RIGHT, LAST), (Keys.HOME, 1),
        ]:
            self.browser.press(key)
            self.is_at(step)

    def test_a_held_key(self):
        """The address is not changed more often than a browser lets it be."""
        self.browser.open(LONG[0])
        for _ in range(300):
            self.browser.press(Keys.ARROW_RIGHT)
        self.is_at(301)

    def test_keys_with_another_key_are_the_browsers(self):
        self.browser.open(FRONT)
        for held in (Keys.CONTROL, Keys.ALT, Keys.SHIFT):
            ActionChains(self.browser.driver).key_down(held).send_keys(Keys.END).key_up(held).perform()
            self.is_at(1)

    def test_the_listing(self):
        self.browser.open(FRONT)
        for step in (5, 2, 9):
            self.browser.click(f"#lines li[aria-posinset='{step}'] a")
            self.is_at(step)
        # Its lines can be walked along by the keys once it has the focus.
        for key, step in [(Keys.ARROW_DOWN, 10), (Keys.ARROW_DOWN, 11), (Keys.ARROW_UP, 10), (Keys.ARROW_RIGHT, 11), (Keys.END, LAST)]:
            self.browser.press(key)
            self.is_at(step)
            self.assertEqual(self.browser.run("return document.activeElement.innerText"), self.browser.read()["line"])

    def test_the_listing_keeps_its_line_in_sight(self):
        self.browser.open(LONG[0])
        for step in (5000, 4999, 700, 1, 12000):
            self.browser.run("location.hash = arguments[0]", step)
            self.is_at(step)
            self.assertTrue(self.browser.run(
                "const line = document.querySelector('#lines [aria-current]').getBoundingClientRect();"
                "const box = document.querySelector('#lines').getBoundingClientRect();"
                "return box.top <= line.top && line.bottom <= box.bottom"), step)

    def test_the_listing_is_whole(self):
        """Scrolled through, it has every line of the proved listing."""
        page = MADE / "generated/deep-2.html"
        self.browser.open(page)
        found = {}
        height = self.browser.run("return document.querySelector('#lines').scrollHeight")
        for top in range(0, height, 300):
            self.browser.run("document.querySelector('#lines').scrollTop = arguments[0]", top)
            self.browser.until(lambda: self.browser.run("return new Promise((done) => requestAnimationFrame(() => done(true)))"), "drawn")
            for number, line in self.browser.run(
                    "return [...document.querySelectorAll('#lines li')].map((item) => [item.ariaPosInSet, item.innerText])"):
                found[int(number)] = line
        self.assertEqual([found[number] for number in sorted(found)], [step.line for step in steps(run_of(page))])

    def test_the_number(self):
        self.browser.open(FRONT)
        for typed, step in [("7", 7), ("18", 18), ("99", LAST), ("-3", 1), ("4", 4), ("", 4)]:
            self.browser.run("document.querySelector('#at').select()")
            self.browser.press(Keys.BACKSPACE, typed, Keys.ENTER)
            self.is_at(step)

    def test_keys_in_the_number_are_its_own(self):
        self.browser.open(FRONT, "#5")
        self.browser.find("#at").click()
        self.browser.press(Keys.ARROW_LEFT, Keys.HOME, Keys.END)
        self.is_at(5)


class Addresses(PageTest):
    def test_a_link_opens_at_its_step(self):
        for address, step in [("#7", 7), ("#18", 18), ("#99", LAST), ("#0", 1), ("#x", 1), ("", 1)]:
            self.browser.open(FRONT, address)
            shown = self.browser.read()
            self.assertEqual(shown["at"], step, address)

    def test_the_address_changes_the_step(self):
        self.browser.open(FRONT, "#7")
        self.browser.run("location.hash = '#12'")
        self.is_at(12)
        self.browser.driver.back()
        self.is_at(7)

    def test_the_way_back_leads_out_of_the_run(self):
        """A step replaces the address, and adds nothing to the browser's way back."""
        self.browser.open(INDEX)
        self.browser.find("a[href='1-front.html']").click()
        for step in (2, 3):
            self.browser.press(Keys.ARROW_RIGHT)
            self.is_at(step)
        self.browser.driver.back()
        self.browser.until(lambda: self.browser.driver.current_url.endswith("/index.html"), "the index is there again")

    def test_a_link_right_after_a_key_is_followed(self):
        self.browser.open(FRONT)
        self.browser.run("document.querySelector('#forward').click(); location.hash = '#9'")
        self.is_at(9)

    def test_reloading_stays(self):
        self.browser.open(FRONT)
        self.browser.press(Keys.ARROW_RIGHT, Keys.ARROW_RIGHT)
        self.is_at(3)
        self.browser.driver.refresh()
        self.is_at(3)

    def test_the_first_chapter_as_a_new_operator(self):
        """From the index to the first chapter, by its text to the blocked front, and why it may run."""
        self.browser.open(INDEX)
        self.browser.find("a[href='1-front.html']").click()
        self.is_at(1)
        self.browser.find(".prose a[href='#7']").click()
        shown = self.is_at(7)
        front = shown["cards"][0]
        self.assertEqual((front["place"], front["name"], front["state"]), ("front", "2.1", "Blocked"))
        self.assertEqual(front["why"], "nothing ahead conflicts, so it may run: a Pick, or with fuel for it a Scan promotes it."
                         " A Recheck says “still”: it counts those behind as well, 1.2 on record 10.")
        self.assertEqual(shown["conflicts"], [["1.2", "2.1"]])
        self.assertEqual(shown["said"], ["2.1 is the front now: blocked, and it may run"])
        for selector in ("#call", "#cards .why"):
            self.assertTrue(self.in_sight(selector), selector)
        # What the text says below the run leads back up to it.
        link = [found for found in self.browser.find_all(".prose a[href='#10']")][0]
        self.browser.run("arguments[0].scrollIntoView()", link)
        link.click()
        shown = self.is_at(10)
        self.assertIn("whatever the counters say", shown["meaning"])
        self.assertTrue(self.in_sight("#call"))

    def in_sight(self, selector):
        return self.browser.run(
            "const { top, bottom } = document.querySelector(arguments[0]).getBoundingClientRect();"
            "return 0 <= top && bottom <= window.innerHeight", selector)

    def test_every_link_of_the_lesson_leads_somewhere(self):
        for page in [INDEX, *CHAPTERS]:
            self.browser.open(page)
            for link in self.browser.find_all("a"):
                target = link.get_dom_attribute("href")
                file, _, step = target.partition("#")
                self.assertTrue((page.parent / file).exists(), f"{page.name}: {target}")
                if step and not file:
                    self.assertLessEqual(int(step), len(steps(run_of(page))), f"{page.name}: {target}")

    def test_chapters_are_in_a_row(self):
        self.browser.open(INDEX)
        self.assertEqual(len(self.browser.find_all(".chapters li")), len(CHAPTERS))
        self.browser.click(".chapters a")
        for chapter in CHAPTERS[1:]:
            self.browser.find_all(".ways a")[-1].click()
            self.browser.until(lambda: chapter.name in self.browser.driver.current_url, chapter.name)


class ByKeyboardAlone(PageTest):
    def test_said_to_whoever_hears(self):
        self.browser.open(FRONT, "#8")
        self.assertEqual(self.browser.run(
            "const [told, score] = ['announced', 'score'].map((id) => document.getElementById(id));"
            "return [told.ariaLive, told.checkVisibility(), score.role]"), ["polite", True, "status"])
        self.assertEqual(self.browser.read()["announced"], "Step 8 of 18. Tenant 2 asks for a Recheck of 2.1. Answer still, burnt 2, left 24.")
        self.assertEqual(len(self.browser.find_all("h1")), 1)
        self.assertEqual(self.browser.find("#count").text, "18")

    def test_all_that_is_clicked_can_be_reached(self):
        self.browser.open(FRONT, "#7")
        reached = []
        for _ in range(12):
            self.browser.press(Keys.TAB)
            name, outline = self.browser.run(
                "const { id, tagName, innerText } = document.activeElement;"
                "const { outlineStyle, outlineWidth } = getComputedStyle(document.activeElement);"
                "return [id || `${tagName} ${innerText}`, `${outlineStyle} ${outlineWidth}`]")
            reached.append(name)
            if not name.startswith("BODY"):
                self.assertEqual(outline, "solid 3px", name)
        wanted = ["SUMMARY How to read this", "first", "back", "at", "forward", "last", "ask"]
        self.assertEqual(reached[:len(wanted)], wanted)
        self.assertIn("A 7 finish done 0 22", reached)
        self.assertEqual(sum(name.startswith("A ") for name in reached), 1, "one line of the listing is a stop")

    def test_buttons_by_enter(self):
        self.browser.open(FRONT)
        self.browser.run("document.querySelector('#forward').focus()")
        self.browser.press(Keys.ENTER)
        self.is_at(2)
        self.browser.press(Keys.SPACE)
        self.is_at(3)

    def test_names(self):
        """What has a use has a name, and the parts of the page have theirs."""
        self.browser.open(FRONT, "#8")
        self.browser.click("#ask")
        self.browser.click("#forward")
        for found in self.browser.find_all("button, input, summary, a, section, fieldset"):
            if found.is_displayed():
                self.assertNotEqual(found.accessible_name.strip(), "", found.get_attribute("outerHTML")[:200])
        names = {found.accessible_name for found in self.browser.find_all("section")}
        self.assertLessEqual({"The proved listing", "Tanks and places before the call", "Counters before the call", "The whole run"}, names)
        headings = [found.tag_name for found in self.browser.find_all("h1, h2, h3, h4") if found.is_displayed()]
        levels = [int(name[1]) for name in headings]
        self.assertTrue(all(after <= before + 1 for before, after in zip(levels, levels[1:])), headings)
        self.assertEqual(self.browser.find("html").get_attribute("lang"), "en")
