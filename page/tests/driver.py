"""What the drivers of browsers share. Two speak WebDriver's commands, each in a way of its own."""
import json
import time

from browser import HAS_BEGUN

# How many seconds an answer and a condition are waited for. It only ends what hangs.
PATIENCE = 600


class Driver:
    """A browser with one page. A class of its own says how it goes to an address (`go`), runs a script (`run`) and acts (`act`)."""

    def load(self, path, place=None):
        self.go("about:blank")
        self.go(f"file://{path}" + ("" if place is None else f"#call={place}"))
        self.wait(HAS_BEGUN)

    def wait(self, condition, seconds=PATIENCE):
        end = time.monotonic() + seconds
        while not self.run(f"return Boolean({condition})"):
            if time.monotonic() > end:
                raise TimeoutError(condition)
            time.sleep(0.02)

    def key(self, key):
        self.act([{"type": "key", "id": "keys", "actions": [{"type": kind, "value": key} for kind in ("keyDown", "keyUp")]}])

    def text(self, name):
        return self.run(f"return document.getElementById({json.dumps(name)}).textContent")
