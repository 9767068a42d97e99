"""Opens pages in a browser, in turns, and prints the medians of the times to their first view and to their chart: see bench/page."""

import statistics
import sys
from pathlib import Path

sys.path.insert(0, str(Path(__file__).resolve().parents[1] / "tests/page"))

from browser import Browser  # noqa: E402

TURNS = 9
MARKS = ("first view", "drawn")


def main(pages):
    browser = Browser()
    times = {page: {mark: [] for mark in MARKS} for page in pages}
    try:
        version = browser.driver.capabilities["browserVersion"]
        for _ in range(TURNS):
            for page in pages:
                browser.open(page)
                for mark in MARKS:
                    times[page][mark].append(browser.run("return performance.getEntriesByName(arguments[0])[0].startTime", mark))
    finally:
        browser.close()
    print(f"chromium {version}, medians of {TURNS} turns, and their ratio to the first page's")
    print(f"{'run':12} {'bytes':>10} {'first view':>17} {'chart':>17}")
    first = {mark: statistics.median(times[pages[0]][mark]) for mark in MARKS}
    for page in pages:
        shown = []
        for mark in MARKS:
            median = statistics.median(times[page][mark])
            shown.append(f"{median:7.0f} ms {median / first[mark]:6.2f}")
        print(f"{Path(page).stem:12} {Path(page).stat().st_size:10,} {shown[0]:>17} {shown[1]:>17}")


if __name__ == "__main__":
    main(sys.argv[1:])
