"""chromium.py PROGRAM: runs the tests that every browser has to pass in a headless Chromium as people have it. All others run in its engine alone."""
import json
import sys

import smoke
from browser import Browser, Tab
from driver import Driver

# The keys that are no character, which WebDriver has a code for.
KEYS = {"\ue010": "End", "\ue011": "Home", "\ue014": "ArrowRight"}


class Chromium(Driver):
    """A browser with one page."""

    def __init__(self, program):
        self.browser = Browser(program)
        self.tab = Tab(self.browser)

    def go(self, address):
        self.tab.call("Page.navigate", url=address)
        self.browser.event("Page.loadEventFired", self.tab.session)

    def run(self, script, *given):
        return self.tab.run(f"(function () {{ {script} }})(...{json.dumps(given)})")

    def key(self, key):
        self.tab.key(KEYS.get(key, key))

    def close(self):
        self.browser.close()


smoke.count("Chromium", Chromium(sys.argv[1]))
