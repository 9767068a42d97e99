"""The chart of the whole run: its bars and lines are those of the steps, and a click leads to a step."""

import re

from selenium.webdriver.common.keys import Keys

from browser import NARROW, WIDE
from following import CARD_STATES, tank_numbers
from listings import steps
from pages import EXAMPLES, MADE, PageTest, on_each_other, run_of

FRONT = MADE / "examples/front.html"
CLASH = MADE / "generated/clash-40.html"
NUMBERED = [FRONT, CLASH, *[MADE / f"generated/{name}.html" for name in ("deep-2", "early-8", "boundary-22")]]
GUTTER = 36  # left of the columns
FUEL_HEIGHT = 110

BARS = """
const number = (part, name) => Number(part.getAttribute(name));
return [...document.querySelectorAll('.request')].map((bar) => [bar.dataset.name, bar.querySelector('title').textContent,
  [...bar.querySelectorAll('rect')].map((part) => ({ state: part.getAttribute('class'), fill: getComputedStyle(part).fill,
    x: number(part, 'x'), y: number(part, 'y'), width: number(part, 'width') }))]);
"""


class Chart(PageTest):
    def width(self):
        return self.browser.run("return document.querySelector('#drawing svg').clientWidth")

    def seen(self, page):
        """What the page shows at each step."""
        self.browser.open(page)
        shown = []
        for _ in steps(run_of(page)):
            shown.append(self.browser.read())
            self.browser.press(Keys.ARROW_RIGHT)
        return shown

    def test_bars_and_lines(self):
        for page in EXAMPLES:
            with self.subTest(page=page.name):
                shown = self.seen(page)
                self.check_bars(shown)
                self.check_fuel(shown)

    def check_bars(self, shown):
        """A bar for each request, from its admission to its leaving, parted where its state changes."""
        stays = {}
        for at, step in enumerate(shown, 1):
            for card in step["cards"]:
                stays.setdefault(card["name"], []).append((at, CARD_STATES[card["state"]]))
        bars = {name: (title, parts) for name, title, parts in self.browser.run(BARS)}
        self.assertEqual(list(bars), list(stays))
        column = (self.width() - GUTTER) / len(shown)
        rows = {}
        for name, stay in stays.items():
            wanted = [(at, state) for (at, state), (_, before) in zip(stay, [(0, "")] + stay) if state != before]
            gone = stay[-1][0] + 1
            title, parts = bars[name]
            self.assertEqual([part["state"] for part in parts], [state for _, state in wanted])
            for part, (start, state), end in zip(parts, wanted, [at for at, _ in wanted[1:]] + [gone]):
                self.assertAlmostEqual(part["x"], GUTTER + (start - 1) * column, delta=1)
                self.assertAlmostEqual(part["x"] + part["width"], GUTTER + (end - 1) * column, delta=1.5)
                self.assertEqual(part["fill"], f'url("#bar-{state}")')
            told = ", ".join(f"{state.capitalize()} from step {at}" for at, state in wanted)
            self.assertEqual(title, f"{name}: {told}" + (f", gone at step {gone}" if gone <= len(shown) else ""))
            rows.setdefault((int(name.split(".")[0]), parts[0]["y"]), []).append((stay[0][0], gone))
        self.check_rows(rows, shown)
        left = sum(gone <= len(shown) for stays in rows.values() for _, gone in stays)
        self.assertIn(f"{len(bars)} request{'s' if len(bars) != 1 else ''} admitted, {left} gone at the end.", self.browser.find("#chart-said").text)

    def check_rows(self, rows, shown):
        """Tenants stand below each other, each with as many rows as it had places in use at once, and no two bars lie on another."""
        ordered = [row for _, row in sorted(rows)]
        self.assertEqual(ordered, sorted(set(ordered)))
        for stays in rows.values():
            self.assertTrue(all(gone <= begins for (_, gone), (begins, _) in zip(stays, stays[1:])), stays)
        held = [[int(card["name"].split(".")[0]) for card in step["cards"]] for step in shown]
        for tenant in {tenant for tenant, _ in rows}:
            self.assertEqual(sum(known == tenant for known, _ in rows), max(step.count(tenant) for step in held))

    def check_fuel(self, shown):
        """Each tenant's line is at what it has left, in the colour that the legend has for it."""
        left = [{tank["tenant"]: tank_numbers(tank)["left"] for tank in step["tanks"]} for step in shown]
        most = max(fuel for tanks in left for fuel in tanks.values())
        axis = float(re.search(r" ([\d.]+)H", self.browser.find(".axis").get_attribute("d"))[1])
        column = (self.width() - GUTTER) / len(shown)
        for tenant in left[-1]:
            drawn = re.findall(r"([\d.]+) ([\d.]+)H([\d.]+)", self.browser.find(f"path.fuel.tenant-{tenant}").get_attribute("d"))
            for at, tanks in enumerate(left, 1):
                middle = GUTTER + (at - 0.5) * column
                heights = [axis - float(y) for start, y, end in drawn if float(start) <= middle <= float(end)]
                self.assertAlmostEqual(heights[0], FUEL_HEIGHT * tanks[tenant] / most, delta=1)
            line, legend, number = self.browser.run(
                "const style = (kind) => getComputedStyle(document.querySelector(`${kind}.tenant-${arguments[0]}`));"
                "return [style('path.fuel').stroke, style('#legend .stroke').borderTopColor, style('text').fill]", tenant)
            self.assertEqual((line, line), (legend, number))
        legend = [entry.text for entry in self.browser.find_all("#legend li")]
        self.assertEqual(legend, ["Free", "Waiting", "Blocked", *[f"t{tenant}, fuel of tenant {tenant}" for tenant in left[-1]]])

    def test_a_click_leads_to_a_step(self):
        self.browser.open(FRONT)
        last = 18
        for step in (1, 7, 8, last):
            self.click_in_column(step, last)
            self.is_at(step)
            x, wide = (float(self.browser.find(".cursor").get_attribute(name)) for name in ("x", "width"))
            self.assertAlmostEqual(x + wide / 2, GUTTER + (self.width() - GUTTER) * (step - 0.5) / last, delta=1)
        # Left of the columns there is no step.
        self.browser.press(Keys.ARROW_LEFT)
        self.click_in_column(-0.2, last)
        self.is_at(last - 1)

    def click_in_column(self, step, last):
        self.browser.run("document.querySelector('#chart').scrollIntoView()")
        left, top = self.browser.run("const { left, top } = document.querySelector('#drawing svg').getBoundingClientRect(); return [left, top]")
        self.browser.click_at(left + GUTTER + (self.width() - GUTTER) * (step - 0.5) / last, top + 30)

    def test_the_steps_are_numbered(self):
        self.browser.open(FRONT)
        column = (self.width() - GUTTER) / 18
        for number in self.browser.find_all(".below"):
            self.assertAlmostEqual(float(number.get_attribute("x")), GUTTER + (int(number.text) - 0.5) * column, delta=1)
        self.assertGreater(len(self.browser.find_all(".below")), 5)

    def test_numbers_can_be_read(self):
        """None lies on another or is cut off."""
        for width in (WIDE, NARROW):
            self.browser.resize(width)
            for page in NUMBERED:
                with self.subTest(width=width, page=page.name):
                    self.browser.open(page)
                    left, right = self.browser.run(
                        "const { left, right } = document.querySelector('#drawing').getBoundingClientRect(); return [left, right]")
                    boxes = self.browser.run(
                        "return [...document.querySelectorAll('#drawing text:not(.inside)')].map((number) => number.getBoundingClientRect())"
                        ".map(({ left, right, top, bottom }) => [left, right, top, bottom])")
                    self.assertGreater(len(boxes), 5)
                    self.assertEqual(on_each_other(boxes), [])
                    self.assertTrue(all(left <= box[0] and box[1] <= right for box in boxes), (left, right, boxes))

    def test_whoever_has_had_fuel_has_a_number(self):
        self.browser.open(CLASH)
        self.browser.press(Keys.END)
        granted = [f"t{tank['tenant']}" for tank in self.browser.read()["tanks"] if tank_numbers(tank)["granted"] > 0]
        self.assertEqual([number.text for number in self.browser.find_all("#drawing .number")], granted)
