"""How the pages look: at both widths, in light and in dark. Pictures of them are left to be looked at."""

from pathlib import Path

from browser import NARROW, WIDE
from listings import steps
from pages import CHAPTERS, EXAMPLES, GENERATED, INDEX, MADE, PICTURES, PageTest, run_of

CONTRAST = Path(__file__).with_name("contrast.js").read_text(encoding="utf-8")
FULL = MADE / "generated/deep-2.html"

# What is seen in the pictures: a page, an address, and what is done there.
SCENES = {
    "front": (MADE / "examples/front.html", "#7", []),
    "scan": (MADE / "examples/neighbour.html", "#9", []),
    "waiting": (MADE / "examples/order.html", "#14", []),
    "refused": (MADE / "examples/stock.html", "#8", []),
    "asked": (MADE / "examples/order.html", "#11", ["#ask", "#forward"]),
    "help": (MADE / "examples/hung.html", "#9", ["summary"]),
    "full": (FULL, "#120", []),
    "changed": (MADE / "special/changed.html", "#8", []),
    "empty": (MADE / "special/empty.html", "", []),
    "chapter": (CHAPTERS[0], "#7", []),
    "index": (INDEX, "", []),
}


class Looks(PageTest):
    def test_pictures(self):
        """Nothing stands out of the window or is too faint to read, and a picture of each scene is kept."""
        for scene, (page, address, clicks) in SCENES.items():
            for width in (WIDE, NARROW):
                for scheme in ("light", "dark"):
                    with self.subTest(scene=scene, width=width, scheme=scheme):
                        self.browser.resize(width)
                        self.browser.colours(scheme)
                        self.browser.open(page, address)
                        for selector in clicks:
                            self.browser.click(selector)
                        self.check_width(width)
                        self.check_scheme(scheme)
                        self.check_contrast()
                        self.browser.picture(PICTURES / f"{scene}-{width}-{scheme}.png")

    def check_width(self, width):
        self.assertEqual(self.browser.run("return document.documentElement.scrollWidth"), width)
        out = self.browser.run(
            "return [...document.querySelectorAll('main *')].filter((found) => found.checkVisibility() && !found.closest('svg, pre, .unseen')"
            " && found.getBoundingClientRect().right > window.innerWidth + 1).map((found) => found.outerHTML.slice(0, 100))")
        self.assertEqual(out, [])

    def check_scheme(self, scheme):
        """In dark, light letters on a dark ground; in light, the other way round."""
        letters, ground = self.browser.run(
            "const { color, backgroundColor } = getComputedStyle(document.body);"
            "return [color, backgroundColor].map((found) => found.match(/\\d+/g).slice(0, 3).reduce((sum, part) => sum + Number(part), 0))")
        self.assertEqual("dark" if ground < letters else "light", scheme)

    def check_contrast(self):
        looked, faint = self.browser.run(CONTRAST)
        self.assertGreater(looked, 0)
        self.assertEqual(faint, [])

    def test_every_step_fits_a_narrow_window(self):
        self.browser.resize(NARROW)
        for page in [*EXAMPLES, FULL]:
            with self.subTest(page=page.name):
                self.browser.open(page)
                for _ in steps(run_of(page))[::5]:
                    self.check_width(NARROW)
                    self.browser.run("for (let count = 0; count < 5; count += 1) document.querySelector('#forward').click()")

    def test_the_chart_follows_the_window(self):
        self.browser.open(EXAMPLES[0])
        for width in (NARROW, WIDE):
            self.browser.resize(width)
            self.browser.until(lambda: self.browser.run(
                "return document.querySelector('#drawing svg').clientWidth === document.querySelector('#drawing').clientWidth"), "it is as wide")
            self.assertEqual(self.browser.run("return document.documentElement.scrollWidth"), width)

    def test_states_are_told_by_more_than_colour(self):
        """A state's word stands on its card, and its bars differ in their pattern."""
        self.browser.open(MADE / "examples/order.html", "#14")
        self.assertEqual([card["state"] for card in self.browser.read()["cards"]], ["Waiting", "Blocked"])
        marks = self.browser.run("return ['free', 'waiting', 'blocked'].map((id) => document.getElementById(`bar-${id}`).children[1]?.tagName || '')")
        self.assertEqual(marks, ["", "circle", "path"])

    def test_what_differs_is_red(self):
        for scheme in ("light", "dark"):
            self.browser.colours(scheme)
            self.browser.open(MADE / "special/changed.html", "#8")
            for selector in ("#different", "#difference", "#lines .differs a"):
                words = self.browser.run("return getComputedStyle(document.querySelector(arguments[0])).color", selector)
                red, green, blue = (int(part) for part in words[4:-1].split(","))
                self.assertGreater(red - max(green, blue), 60, f"{scheme} {selector}: {words}")

    def test_moving_parts_are_few(self):
        """Whoever wants none has none."""
        self.browser._command("Emulation.setEmulatedMedia", features=[{"name": "prefers-reduced-motion", "value": "reduce"}])
        self.browser.open(EXAMPLES[0], "#5")
        self.assertEqual(self.browser.run("return getComputedStyle(document.querySelector('.full')).transitionDuration"), "0s")
        self.assertGreater(len(GENERATED), 0)
