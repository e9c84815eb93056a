"""webkit.py DRIVER: runs the tests that every browser has to pass in WebKitGTK, which has Safari's engine. Its small browser is driven by WebDriver, and
has no mode without a display, so it gets one that only exists in memory.
"""
import json
import os
import socket
import subprocess
import sys
import time
import urllib.error
import urllib.request

import smoke
from driver import PATIENCE, Driver


# How often a port is tried: another process may take one before the driver listens there.
TRIES = 5


def free_port():
    with socket.socket() as link:
        link.bind(("127.0.0.1", 0))
        return link.getsockname()[1]


class Display:
    """A display in memory, whose number the server chooses."""

    def __init__(self):
        reads, writes = os.pipe()
        words = ["Xvfb", "-displayfd", str(writes), "-screen", "0", "1440x920x24", "-nolisten", "tcp"]
        self.process = subprocess.Popen(words, pass_fds=[writes], stdin=subprocess.DEVNULL, stdout=subprocess.DEVNULL, stderr=subprocess.DEVNULL)
        os.close(writes)
        with os.fdopen(reads, encoding="ascii") as file:
            self.name = f":{file.readline().strip()}"

    def close(self):
        self.process.terminate()
        self.process.wait()


class WebKit(Driver):
    """A browser with one page."""

    def __init__(self, driver):
        self.display = Display()
        self.session = ""
        answers = (self.first_answer(driver) for _ in range(TRIES))
        answer = next((it for it in answers if it is not None), None)
        assert answer, "the driver of WebKit doesn't listen"
        self.session = f"/session/{answer['sessionId']}"
        self.call("window/rect", x=0, y=0, width=1440, height=920)

    def first_answer(self, driver):
        """Starts the driver, and begins a session once it listens. Returns nothing if it has ended before."""
        self.port = free_port()
        self.process = subprocess.Popen([driver, f"--port={self.port}"], env={**os.environ, "DISPLAY": self.display.name}, stdin=subprocess.DEVNULL,
                                        stdout=subprocess.DEVNULL, stderr=subprocess.DEVNULL)
        end = time.monotonic() + PATIENCE
        while self.process.poll() is None:
            try:
                return self.call("session", capabilities={})
            except urllib.error.URLError:
                if time.monotonic() > end:
                    raise
                time.sleep(0.05)
        return None

    def call(self, command, **values):
        request = urllib.request.Request(f"http://127.0.0.1:{self.port}{self.session}/{command}", json.dumps(values).encode(),
                                         {"Content-Type": "application/json"})
        try:
            with urllib.request.urlopen(request, timeout=PATIENCE) as answer:
                return json.load(answer)["value"]
        except urllib.error.HTTPError as fault:
            raise RuntimeError(f"{command}: {fault.read().decode()[:400]}") from fault

    def go(self, address):
        self.call("url", url=address)

    def run(self, script, *given):
        return self.call("execute/sync", script=script, args=list(given))

    def act(self, actions):
        self.call("actions", actions=actions)

    def close(self):
        """Ends the session, and with it the browser that the driver started."""
        request = urllib.request.Request(f"http://127.0.0.1:{self.port}{self.session}", method="DELETE")
        urllib.request.urlopen(request, timeout=PATIENCE).close()
        self.process.terminate()
        self.process.wait()
        self.display.close()


smoke.count("WebKit", WebKit(sys.argv[1]))
