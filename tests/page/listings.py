"""The proved listing of a run, the second program's view of it, and the table of refusals, as the tests hold a page to them."""

import re
from collections import namedtuple
from pathlib import Path

ROOT = Path(__file__).resolve().parents[2]

Step = namedtuple("Step", "line view")
Line = namedtuple("Line", "number call answer burnt left")


def steps(run):
    """The lines of RUN.listing, which the proved program wrote, each with the rows that eventshow wrote below it to RUN.view."""
    shown = Path(f"{run}.view").read_text(encoding="utf-8").splitlines()
    found = []
    for row in shown[1:]:
        if row.startswith("    "):
            found[-1].view.append(squeezed(row))
        else:
            found.append(Step(row, []))
    proved = Path(f"{run}.listing").read_text(encoding="utf-8").splitlines()
    assert [step.line for step in found] == proved[1:], f"{run}: the view has other lines than the listing"
    return found


def fields(line):
    return Line(*line.split(" "))


def squeezed(row):
    return " ".join(row.split())


def refusal_rows():
    """What each refusal means, by call and number, and what it burns, from the tables of docs/CALLS.md."""
    text = (ROOT / "docs/CALLS.md").read_text(encoding="utf-8")
    names = set(re.findall(r"^\| `(\w+)` \| ", text, re.M))
    rows = {}
    meaning = ""
    for number, means, calls, burns in re.findall(r"^\| (\d+) \| (.*?) \| (.*?) \| (.*?) \|$", text, re.M):
        meaning = meaning if means == "the same" else plain(means)
        named = set(re.findall(r"`(\w+)`", calls))
        for call in names - named if calls.startswith("all but") else named:
            rows[(call, number)] = (meaning, burns)
    for number, means in re.findall(r"^\| (2\d) \| (.*?) \|$", text, re.M):
        rows[("file", number)] = (plain(means), "0")
    return rows


def plain(words):
    return words.replace("`", "")
