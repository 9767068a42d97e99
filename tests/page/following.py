"""A page's step as the second program's view has it, and its price by the rules that are told in words."""

import re

from listings import fields, squeezed

CARD_STATES = {"Free": "free", "Waiting": "waiting", "Blocked": "blocked"}


def records(text):
    """The records of `reads 3 5`."""
    return [int(word) for word in text.split()[1:]]


def clashes(one, other):
    """The records on which two cards conflict: written by one of them, and read or written by the other."""
    own, theirs = ({"reads": records(card["reads"]), "writes": records(card["writes"])} for card in (one, other))
    written = set(own["writes"]) & set(theirs["writes"] + theirs["reads"])
    return sorted(written | set(own["reads"]) & set(theirs["writes"]))


def conflicts(card, others):
    """Whom of the others a card conflicts with, and on which records."""
    found = [(other["name"], clashes(card, other)) for other in others if other is not card]
    return [(name, on) for name, on in found if on]


def conflicts_ahead(cards):
    """Of each Blocked card, by name: whom ahead it conflicts with, and on which records."""
    found = {}
    for place, card in enumerate(cards):
        if card["state"] == "Blocked":
            found[card["name"]] = conflicts(card, cards[:place])
    return found


def listed(items):
    """`7`, `7 and 9`, `7, 9 and 12`; of a long list the first twenty."""
    words = [str(item) for item in items[:20]] + [f"{len(items) - 20} more"] * (len(items) > 20)
    return " and ".join([", ".join(words[:-1]), words[-1]] if len(words) > 1 else words)


def with_whom(found):
    return listed([f"{name} on record{'s' if len(on) > 1 else ''} {listed(on)}" for name, on in found])


def view(shown):
    """The rows of `eventshow` for what a page shows."""
    ahead = conflicts_ahead(shown["cards"])
    rows = [card_row(card, ahead) for card in shown["cards"]] or ["queue empty"]
    if shown["cx"]:
        rows.append("Cx " + " ".join(shown["cx"]))
    if shown["cs"]:
        rows.append("Cs " + " ".join(shown["cs"]))
    # A tank without a share that has run dry is still on the page.
    tanks = [(tank["tenant"], tank_numbers(tank)["left"], tank_places(tank)) for tank in shown["tanks"]]
    tanks = [(tenant, left, places) for tenant, left, places in tanks if left > 0 or places[1] > 0]
    if tanks:
        fuel = " ".join(f"{tenant}={left}" for tenant, left, _ in tanks)
        places = " ".join(f"{tenant}={held}/{share}" for tenant, _, (held, share) in tanks)
        rows.append(f"fuel {fuel}, places {places}")
    return rows


def card_row(card, ahead):
    due = re.fullmatch(r"answers due: (\d+) of (\d+)", card["due"])
    awaited = f"awaited {due[2]} due {due[1]}" if due else ""
    waits = ""
    if card["name"] in ahead:
        lowest = min((record for _, on in ahead[card["name"]] for record in on), default=None)
        waits = "nothing ahead conflicts" if lowest is None else f"waits for record {lowest}"
    front = "front" if card["place"] == "front" else ""
    return squeezed(" ".join([front, card["name"], CARD_STATES[card["state"]], awaited, card["reads"], card["writes"], waits]))


def tank_numbers(tank):
    found = re.fullmatch(r"granted ([\d,]+) burnt ([\d,]+) left ([\d,]+)", tank["numbers"])
    granted, burnt, left = (int(number.replace(",", "")) for number in found.groups())
    return {"granted": granted, "burnt": burnt, "left": left}


def fuel_of(name, shown):
    """What the tenant of a request has left."""
    return next(tank_numbers(tank)["left"] for tank in shown["tanks"] if f"{tank['tenant']}" == name.split(".")[0])


def tank_places(tank):
    found = re.fullmatch(r"places (\d+) of (\d+)", tank["places"])
    return int(found[1]), int(found[2])


def size(card):
    return len(records(card["reads"])) + len(records(card["writes"]))


def each(card):
    """What the units of 1 + n are for."""
    n = size(card)
    return ["1, and no record", "1, and 1 for its record"][n] if n < 2 else f"1, and 1 for each of {n} records"


def ready(cards, place, fuel):
    """How a Blocked card that conflicts with nothing ahead can be promoted, in the page's words."""
    card = cards[place]
    tenant = card["name"].split(".")[0]
    ahead = conflicts_ahead(cards)
    own = [other["name"] for other in cards[:place] if other["name"].split(".")[0] == tenant]
    sooner = [name for name in own if name in ahead and not ahead[name]]
    behind = any(clashes(card, other) for other in cards[place + 1:])
    paid = " or ".join(["a Scan"] * (not sooner) + ["a Recheck"] * (not behind)) if fuel else ""
    ways = ", or ".join(["a Pick"] * (place == 0) + [f"with fuel for it {paid}"] * bool(paid))
    said = f"{ways} promotes it" if ways else "at the front a Pick will promote it"
    if not fuel:
        return f"{said}; tenant {tenant} is dry"
    return f"{said}; a Scan promotes {sooner[0]} first" if sooner else said


def price(shown, before, rows):
    """The parts that a step's price must have, as units and words that tell what for."""
    line = fields(shown["line"])
    refused = re.fullmatch(r"refused:(\d+)", line.answer)
    cards = {card["name"]: card for card in before["cards"]}
    if line.call == "scan" and (not refused or refused[1] == "9"):
        return search_price(line, before["cards"])
    if refused:
        if line.call == "file":
            return []
        meaning, burns = rows[(line.call, refused[1])]
        return [(int(burns), f"for refusal {refused[1]} by the table: {meaning}")]
    if line.call == "begin":
        joined = shown["cards"][-1]
        half = 1 + size(joined)
        return [(half, f"now: {each(joined)}"), (half, f"for the release, paid beforehand: {each(joined)}")]
    if line.call == "recheck":
        name = ".".join(shown["typed"].split()[1:])
        return [(1 + size(cards[name]), f"for the Recheck of {name}: {each(cards[name])}")]
    return [(1, "for the cancel")] if line.call == "cancel" else []


def search_price(line, queue):
    """1, and 1 + n for each entry from the front, up to the one that is promoted, or as far as the units went."""
    parts = [(1, "for the Scan itself")]
    for card in queue:
        if line.answer.startswith("refused") and sum(units for units, _ in parts) == int(line.burnt):
            break
        parts.append((1 + size(card), f"for the look at {card['name']}: {each(card)}"))
        if line.answer.endswith(f":{card['name']}"):
            break
    return parts
