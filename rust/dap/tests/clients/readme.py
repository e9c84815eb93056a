#!/usr/bin/env -S python3 -B
"""Debugs the package of the README, as a user does who has read no further: a launch with the test's name, and then the real call. It is run by
rust/tokio-recorded/as_users, in a folder with the crate and the patch of tokio, with the variables ADAPTER, the program, and README, that file."""

import json
import os
import re
import shutil
import subprocess

MANIFEST = """[package]
name = "shop"
version = "0.0.0"
edition = "2024"

[dependencies]
tokio = { version = "1", features = ["macros", "rt", "sync"] }

[dev-dependencies]
yovanelum = { path = "../yovanelum/rust" }

[workspace]
"""


def package():
    """Writes the package, of which no run has left a journal, and returns its folder."""
    shutil.rmtree("shop/target/yovanelum", ignore_errors=True)
    with open(os.environ["README"], encoding="utf-8") as file:
        library, *tests = re.findall(r"^```rust\n(.*?)^```$", file.read(), re.M | re.S)
    # The adapter runs cargo's tests, and so it takes the one that creates a recorder.
    (test,) = (text for text in tests if "Recorder" in text)
    for path, text in (("Cargo.toml", MANIFEST), ("src/lib.rs", library), ("tests/orders.rs", test)):
        os.makedirs(os.path.dirname(f"shop/{path}") or ".", exist_ok=True)
        with open(f"shop/{path}", "w", encoding="utf-8") as file:
            file.write(text)
    return os.path.realpath("shop")


class Adapter:
    def __init__(self, folder):
        self.process = subprocess.Popen([os.environ["ADAPTER"]], stdin=subprocess.PIPE, stdout=subprocess.PIPE, cwd=folder)
        self.count, self.printed = 0, ""

    def next(self):
        length = 0
        for line in iter(self.process.stdout.readline, b"\r\n"):
            length = int(line.split(b":")[1])
        message = json.loads(self.process.stdout.read(length))
        if message.get("event") == "output":
            self.printed += message["body"]["output"]
        return message

    def until(self, is_wanted):
        message = self.next()
        while not is_wanted(message):
            message = self.next()
        return message

    def ask(self, command, **arguments):
        self.count += 1
        text = json.dumps({"seq": self.count, "type": "request", "command": command, "arguments": arguments}).encode()
        self.process.stdin.write(b"Content-Length: %d\r\n\r\n%s" % (len(text), text))
        self.process.stdin.flush()
        answer = self.until(lambda message: message["type"] == "response" and message["request_seq"] == self.count)
        assert answer["success"], (answer, self.printed)
        return answer.get("body")


def first_stop(folder, **launch):
    """Launches, and returns the adapter, and the top frame at the first stop."""
    adapter = Adapter(folder)
    adapter.ask("initialize", adapterID="yovanelum", supportsStartDebuggingRequest=True)
    adapter.ask("launch", **launch)
    adapter.ask("configurationDone")
    thread = adapter.until(lambda message: message.get("event") == "stopped")["body"]["threadId"]
    return adapter, adapter.ask("stackTrace", threadId=thread, levels=1)["stackFrames"][0]


def real_call(adapter):
    """What the program prints that the editor would start a debugger on."""
    adapter.ask("evaluate", expression="native", context="repl")
    started = adapter.until(lambda message: message.get("command") == "startDebugging" or message.get("body", {}).get("category") == "important")
    assert started["type"] == "request", started
    started = started["arguments"]["configuration"]
    ran = subprocess.run([started["program"], *started["args"]], cwd=started["cwd"], env={**os.environ, **started["env"]}, stdout=subprocess.PIPE,
                         stderr=subprocess.STDOUT, check=False, text=True)
    return ran.stdout


def debug(folder, **launch):
    adapter, frame = first_stop(folder, **launch)
    said = f"{frame['name']} at {os.path.basename(frame['source']['path'])}:{frame['line']}"
    assert said == 'orders.send("order 73") = sent 1 at lib.rs:5', said
    replayed = real_call(adapter)
    assert "all 6 calls in the recorded order; the same failure" in replayed, replayed
    adapter.ask("disconnect")
    adapter.process.wait()
    return adapter.printed


of_shop = package()
first = debug(of_shop, test="no_order_is_missing")
assert first.count("recorded nothing over tokio's own channels. It is run again with the patch of tokio") == 1, first
# The journal that was left says that its run had the patch.
assert "recorded nothing" not in debug(os.path.join(of_shop, "tests"))
assert "recorded nothing" not in debug(of_shop, test="no_order_is_missing")
