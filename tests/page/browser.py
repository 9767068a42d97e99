"""A real browser without a window, and what is read off a page in it: what a student sees, never the page's own variables."""

import json
import re
from pathlib import Path

from selenium import webdriver
from selenium.webdriver.chrome.options import Options
from selenium.webdriver.chrome.service import Service
from selenium.webdriver.common.action_chains import ActionChains
from selenium.webdriver.common.by import By
from selenium.webdriver.support.ui import WebDriverWait

WIDE, NARROW = 1280, 400
HEIGHT = 900
READING = Path(__file__).with_name("reading.js").read_text(encoding="utf-8")


class Browser:
    """Chromium by its driver."""

    def __init__(self):
        options = Options()
        options.binary_location = "/usr/bin/chromium"
        for word in ["--headless=new", "--no-sandbox", "--disable-dev-shm-usage", "--hide-scrollbars"]:
            options.add_argument(word)
        options.set_capability("goog:loggingPrefs", {"browser": "ALL"})
        self.driver = webdriver.Chrome(service=Service("/usr/bin/chromedriver"), options=options)
        self.resize(WIDE)
        self.colours("light")

    def close(self):
        self.driver.quit()

    def resize(self, width, height=HEIGHT):
        self._command("Emulation.setDeviceMetricsOverride", width=width, height=height, deviceScaleFactor=1, mobile=False)

    def colours(self, scheme):
        features = [{"name": "prefers-color-scheme", "value": scheme}]
        self._command("Emulation.setEmulatedMedia", features=features)

    def _command(self, name, **settings):
        self.driver.execute_cdp_cmd(name, settings)

    def open(self, path, address=""):
        """Opens a page anew, and waits for its chart, which comes last; an index and an empty run have none."""
        self.driver.get("about:blank")
        self.driver.get(f"{Path(path).resolve().as_uri()}{address}")
        if self.find_all("#drawing") and not self.find("#empty").is_displayed():
            self.until(lambda: self.run("return performance.getEntriesByName('drawn').length > 0"), "the page is drawn")

    def run(self, script, *arguments):
        return self.driver.execute_script(script, *arguments)

    def read(self):
        """All that the page shows of its step."""
        return json.loads(self.run(READING))

    def press(self, *keys):
        ActionChains(self.driver).send_keys(*keys).perform()

    def find(self, selector):
        return self.driver.find_element(By.CSS_SELECTOR, selector)

    def find_all(self, selector):
        return self.driver.find_elements(By.CSS_SELECTOR, selector)

    def click(self, selector):
        self.find(selector).click()

    def click_at(self, x, y):
        """Clicks at a place of the window."""
        chain = ActionChains(self.driver)
        chain.w3c_actions.pointer_action.move_to_location(int(x), int(y)).click()
        chain.perform()

    def until(self, holds, what):
        WebDriverWait(self.driver, 20, poll_frequency=0.02).until(lambda _: holds(), what)

    def address(self):
        found = re.search(r"#(.*)$", self.driver.current_url)
        return found.group(1) if found else ""

    def messages(self):
        return [entry["message"] for entry in self.driver.get_log("browser")]

    def picture(self, path):
        """A picture of the whole page, however long it is."""
        width = self.run("return window.innerWidth")
        self.resize(width, self.run("return document.documentElement.scrollHeight"))
        self.until(lambda: self.run("return document.getAnimations().length === 0"), "nothing moves")
        self.driver.save_screenshot(str(path))
        self.resize(width)
