"""At every step a page's answer, units, fuel and queue are the proved listing's and the second program's."""

import re

from selenium.webdriver.common.keys import Keys

from following import clashes, conflicts, conflicts_ahead, fuel_of, price, ready, records, tank_numbers, tank_places, view, with_whom
from listings import fields, refusal_rows, steps
from pages import CHAPTERS, EXAMPLES, GENERATED, PageTest, run_of

ROWS = refusal_rows()
NAMED_AT_MOST = 4
LABELLED_AT_MOST = 12
LABELLED_SPAN = 7  # cards, at this width
ORDINALS = ["front", "2nd", "3rd", *[f"{place}th" for place in range(4, 21)], "21st", "22nd", "23rd", *[f"{place}th" for place in range(24, 31)]]


class EveryStep(PageTest):
    def test_examples(self):
        self.assertEqual(len(EXAMPLES), 11)
        for page in EXAMPLES:
            self.follow(page, and_back=True)

    def test_chapters(self):
        self.assertEqual(len(CHAPTERS), 7)
        for page in CHAPTERS:
            self.follow(page, and_back=True)

    def test_generated(self):
        self.assertGreater(len(GENERATED), 20)
        for page in GENERATED:
            self.follow(page)

    def follow(self, page, and_back=False):
        """Forward by the keys to the last step, and back again."""
        with self.subTest(page=page.name):
            self.browser.open(page)
            wanted = steps(run_of(page))
            seen = []
            for step in wanted:
                shown = self.browser.read()
                self.check(step, shown, seen)
                seen.append(shown)
                self.browser.press(Keys.ARROW_RIGHT)
            for before in seen[-2::-1] if and_back else []:
                self.browser.press(Keys.ARROW_LEFT)
                self.assertEqual(self.browser.read(), before)

    def check(self, step, shown, seen):
        line = fields(step.line)
        before = seen[-1] if seen else {"cards": [], "tanks": []}
        self.assertEqual(shown["line"], step.line)
        self.assertEqual((shown["answer"], shown["burnt"], shown["left"]), (line.answer, line.burnt, line.left))
        self.assertEqual((shown["red"], shown["now"]), ([], step.line))
        whose = "" if line.left == "-" else f"in the tank of tenant {shown['typed'].split()[1]}"
        self.assertEqual(shown["whose"], whose)
        if line.call != "file":
            self.assertEqual(view(shown), step.view)
            self.assertEqual(shown["typed"].split()[0], line.call)
        self.check_queue(shown)
        self.check_meaning(shown, line)
        self.check_marks(shown, line, before)
        self.check_tanks(shown, line, before)
        self.check_price(shown, line, before)
        self.assertNotRegex(str(shown), "undefined|NaN|null|Infinity|object")

    def check_queue(self, shown):
        """A line from each Blocked card to those ahead that it conflicts with, and the records, on the card and at the line."""
        cards = {card["name"]: card for card in shown["cards"]}
        ahead = conflicts_ahead(shown["cards"])
        wanted = [(name, other, on) for name, others in ahead.items() for other, on in others]
        self.assertEqual(shown["conflicts"], [[name, other] for name, other, _ in wanted])
        touched = [card["name"] for card in shown["cards"] if card["touched"]]
        places = {name: place for place, name in enumerate(cards)}
        close = max([places[name] - places[other] for name, other, _ in wanted], default=1) <= LABELLED_SPAN
        if len(wanted) <= LABELLED_AT_MOST and close:
            labelled = wanted
        else:
            labelled = [conflict for conflict in wanted if conflict[0] in touched]
        self.assertEqual(shown["labels"], [f"{on[0]}…" if len(on) > 1 else f"{on[0]}" for _, _, on in labelled])
        for name, others in ahead.items():
            why = cards[name]["why"]
            if not others:
                self.check_ready(why, places[name], shown["cards"], fuel_of(name, shown))
            else:
                many = f"{len(others)} requests ahead: " if len(others) > NAMED_AT_MOST else ""
                self.assertEqual(why, f"waits for {many}{with_whom(others)}")
        named = [card["place"] for card in shown["cards"]]
        self.assertEqual(named[:len(ORDINALS)], ORDINALS[:len(named)])

    def check_ready(self, why, place, cards, fuel):
        """What nothing ahead holds up is said to be so, with the calls that promote it as things stand."""
        due = re.match(r"answers due: (\d+)", cards[place]["due"])
        then = "it may run" if not due or due[1] == "0" else f"it may go on to wait for its {due[1]} answer"
        self.assertTrue(why.startswith(f"nothing ahead conflicts, so {then}"), why)
        self.assertIn(f": {ready(cards, place, fuel)}.", why)
        behind = any(clashes(cards[place], other) for other in cards[place + 1:])
        self.assertEqual("A Recheck says “still”" in why, behind)

    def check_meaning(self, shown, line):
        """Whom a Begin is Blocked by, with the record behind the @, and whom a Recheck counts, ahead and behind."""
        cards = shown["cards"]
        if line.call == "begin" and line.answer.startswith("blocked"):
            lowest = line.answer.split("@")[1]
            clash = f"it conflicts with {with_whom(conflicts(cards[-1], cards))}. The lowest of these records, {lowest}, stands behind the @."
            self.assertTrue(shown["meaning"].endswith(f"It is Blocked: {clash}"), shown["meaning"])
        if line.answer == "still":
            name = ".".join(shown["typed"].split()[1:])
            place = [card["name"] for card in cards].index(name)
            still = f"{name} stays Blocked: by the counters others want its records too, {with_whom(conflicts(cards[place], cards))}."
            then = f" But nothing ahead conflicts: {ready(cards, place, fuel_of(name, shown))}."
            self.assertEqual(shown["meaning"], still + ("" if conflicts(cards[place], cards[:place]) else then))

    def check_marks(self, shown, line, before):
        """The entry that the call is about has a frame, its records are marked in the grids, and so is the tank of the tenant named."""
        words = shown["typed"].split()
        answered = re.match(r"[a-z]+:(\d+\.\d+)", line.answer)
        named = ".".join(words[1:3]) if line.call in ("finish", "recheck", "deliver", "evict", "cancel") else ""
        name = answered[1] if answered else named
        after, was = ({card["name"]: card for card in state["cards"]} for state in (shown, before))
        card = after.get(name) or was.get(name) or {"reads": "", "writes": ""}
        self.assertEqual([found["name"] for found in shown["cards"] if found["touched"]], [name] if name in after else [])
        self.assertEqual((shown["cxMarked"], shown["csMarked"]), (records(card["writes"]), records(card["reads"])))
        tenants = [] if line.call in ("open", "pick", "file") else [int(words[1])]
        self.assertEqual([tank["tenant"] for tank in shown["tanks"] if tank["touched"]],
                         [tenant for tenant in tenants if tenant in [tank["tenant"] for tank in shown["tanks"]]])
        for said, counters, name in [("cxSaid", "cx", "Cx, how many write it"), ("csSaid", "cs", "Cs, how many read it")]:
            more = f" and {len(shown[counters]) - 16} more" if len(shown[counters]) > 16 else ""
            self.assertEqual(shown[said], f"{name}: {' '.join(shown[counters][:16]) or 'all 0'}{more}")

    def check_tanks(self, shown, line, before):
        """What is left is what was granted less what was burnt, and a call's units are the named tenant's alone."""
        known = {tank["tenant"]: tank_numbers(tank) for tank in before["tanks"]}
        for tank in shown["tanks"]:
            numbers = tank_numbers(tank)
            self.assertEqual(numbers["left"], numbers["granted"] - numbers["burnt"])
            self.assertEqual((tank["held"], tank["seats"]), tank_places(tank))
            self.assertEqual(tank["named"], f"tenant {tank['tenant']}")
            full = numbers["left"] / numbers["granted"] if numbers["granted"] else 0
            self.assertAlmostEqual(tank["full"], full, delta=0.02)
            was = known.get(tank["tenant"], {"burnt": 0, "granted": 0})
            own = shown["typed"].split()[1:2] == [str(tank["tenant"])] and line.call not in ("open", "pick")
            self.assertEqual(numbers["burnt"] - was["burnt"], int(line.burnt) if own else 0)
            granted = line.call == "grant" and line.answer == "ok" and own
            self.assertEqual(numbers["granted"] - was["granted"], int(shown["typed"].split()[2]) if granted else 0)

    def check_price(self, shown, line, before):
        wanted = price(shown, before, ROWS)
        self.assertEqual([units for units, _ in shown["parts"]], [units for units, _ in wanted])
        for (_, found), (units, what) in zip(shown["parts"], wanted):
            self.assertEqual(found, f"{units} {what}")
        self.assertEqual(sum(units for units, _ in wanted), int(line.burnt))
        if len(wanted) > 1:
            units = " + ".join(str(units) for units, _ in wanted)
            self.assertEqual(shown["sum"], f"{units} = {line.burnt}")
        looked = [card["looked"] for card in shown["cards"]]
        looks = [f"look: {units} unit{'s' if units > 1 else ''}" for units, what in wanted if what.startswith("for the look at")]
        self.assertEqual(looked, (looks + [""] * len(looked))[:len(looked)])
