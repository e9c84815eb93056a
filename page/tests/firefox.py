"""firefox.py PROGRAM: runs the tests that every browser has to pass in a headless Firefox, which is driven by its Marionette protocol."""
import json
import os
import shutil
import socket
import subprocess
import sys
import tempfile
import time

import smoke
from driver import PATIENCE, Driver

PREFERENCES = {"marionette.port": 0, "browser.shell.checkDefaultBrowser": False, "datareporting.policy.dataSubmissionEnabled": False,
               "app.update.enabled": False, "toolkit.telemetry.enabled": False}


class Firefox(Driver):
    """A browser with one page."""

    def __init__(self, program):
        self.profile = tempfile.mkdtemp()
        with open(os.path.join(self.profile, "user.js"), "w", encoding="ascii") as file:
            file.writelines(f"user_pref({json.dumps(name)}, {json.dumps(value)});\n" for name, value in PREFERENCES.items())
        words = [program, "--headless", "--marionette", "--no-remote", "--profile", self.profile, "--width", "1440", "--height", "920"]
        self.process = subprocess.Popen(words, stdin=subprocess.DEVNULL, stdout=subprocess.DEVNULL, stderr=subprocess.DEVNULL)
        self.link = socket.create_connection(("127.0.0.1", self.port()), PATIENCE)
        self.rest, self.count = b"", 0
        self.message()
        self.call("WebDriver:NewSession")

    def port(self):
        """The port that the browser writes into its profile once it listens there."""
        path, end = os.path.join(self.profile, "MarionetteActivePort"), time.monotonic() + PATIENCE
        while time.monotonic() < end:
            if os.path.exists(path) and os.path.getsize(path):
                with open(path, encoding="ascii") as file:
                    return int(file.read())
            time.sleep(0.05)
        raise TimeoutError("Firefox opened no port")

    def message(self):
        """The next message: its length in digits, a colon, and JSON."""
        while b":" not in self.rest:
            self.rest += self.link.recv(1 << 16)
        length, _, self.rest = self.rest.partition(b":")
        while len(self.rest) < int(length):
            self.rest += self.link.recv(1 << 20)
        text, self.rest = self.rest[:int(length)], self.rest[int(length):]
        return json.loads(text)

    def call(self, command, **values):
        self.count += 1
        said = json.dumps([0, self.count, command, values]).encode()
        self.link.sendall(b"%d:%s" % (len(said), said))
        _, _, fault, answer = self.message()
        if fault:
            raise RuntimeError(f"{command}: {fault['message']}")
        return answer

    def go(self, address):
        self.call("WebDriver:Navigate", url=address)

    def run(self, script, *given):
        return self.call("WebDriver:ExecuteScript", script=script, args=list(given))["value"]

    def act(self, actions):
        self.call("WebDriver:PerformActions", actions=actions)

    def close(self):
        self.process.terminate()
        self.process.wait()
        shutil.rmtree(self.profile, ignore_errors=True)


smoke.count("Firefox", Firefox(sys.argv[1]))
