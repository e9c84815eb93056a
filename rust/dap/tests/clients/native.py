"""Has gdb stop a replay before each send of a journal, and looks there at the thread and at a variable of the test's own. `gdb -batch -x native.py`,
with the variables ADAPTER, the program, SHOP, the package with the test, SAID, a file for what the replays say, FOUND, one for what was found, and EVERY: it
stops before one in that number of sends."""

import json
import os
import subprocess
import time

import gdb

shop, said = os.environ["SHOP"], os.environ["SAID"]
found = open(os.environ["FOUND"], "w")


class Adapter:
    """A client of the adapter, which can start other debuggers."""

    def __init__(self):
        self.process = subprocess.Popen([os.environ["ADAPTER"]], stdin=subprocess.PIPE, stdout=subprocess.PIPE, cwd=shop)
        self.count = 0

    def next(self):
        length = 0
        for line in iter(self.process.stdout.readline, b"\r\n"):
            length = int(line.split(b":")[1])
        return json.loads(self.process.stdout.read(length))

    def until(self, is_wanted):
        message = self.next()
        while not is_wanted(message):
            message = self.next()
        return message

    def ask(self, command, **arguments):
        self.count += 1
        text = json.dumps({"seq": self.count, "type": "request", "command": command, "arguments": arguments}).encode()
        self.process.stdin.write(b"Content-Length: %d\r\n\r\n%s" % (len(text), text))
        self.process.stdin.flush()
        answer = self.until(lambda message: message["type"] == "response" and message["command"] == command)
        assert answer["success"], answer
        return answer.get("body")

    def configuration(self, call):
        """Has the adapter run the test, goes to a call, and asks for the real one. Returns how the adapter has another debugger started."""
        self.ask("initialize", adapterID="yovanelum", supportsStartDebuggingRequest=True)
        self.ask("launch", test="two_desks", stopAt=call, nativeDebugger="gdb")
        self.ask("configurationDone")
        thread = self.until(lambda message: message.get("event") == "stopped")["body"]["threadId"]
        frame = self.ask("stackTrace", threadId=thread, levels=1)["stackFrames"][0]["id"]
        targets = self.ask("stepInTargets", frameId=frame)["targets"]
        real = [target["id"] for target in targets if target["label"] == "the real call, in a native debugger"]
        self.ask("stepIn", threadId=thread, targetId=real[0])
        started = self.until(lambda message: message.get("command") == "startDebugging")
        self.ask("disconnect")
        self.process.wait()
        return started["arguments"]["configuration"]


def sends(journal):
    """The sends of the journal, each with its number, its actor's name and the text of its value."""
    with open(journal[: -len("journal")] + "names") as file:
        names = json.load(file)
    with open(journal) as file:
        lines = [line.split() for line in file]
    for words in (words for words in lines if words[3:4] == ["send"]):
        number, actor, channel, value = words[0], words[1], words[2], words[5]
        yield int(number), names["actors"][actor], names["values"][channel][value]


def prepare(started):
    """Has gdb start what the adapter says."""
    for setting in ("pagination off", "confirm off", "debuginfod enabled off", "print thread-events off"):
        gdb.execute("set " + setting)
    gdb.execute("file " + started["program"], to_string=True)
    gdb.execute("cd " + started["cwd"], to_string=True)
    gdb.execute("set args %s 2>%s >/dev/null" % (" ".join(started["args"]), said))
    for name, value in started["env"].items():
        gdb.execute("set environment %s %s" % (name, value))


def run():
    """Runs the test until it stops, and returns the thread's name and the text of the value that it is about to send."""
    gdb.execute("run", to_string=True)
    frame = gdb.newest_frame()
    while frame.name() != "desks::publish":
        frame = frame.older()
    return gdb.selected_thread().name, "order %d" % int(frame.read_var("id"))


started = Adapter().configuration(call=40)
environment = started["env"]
print("%s starts before call %s" % (started["type"], environment["YOVANELUM_REPLAY_STOP"]), file=found)
prepare(started)
expected = list(sends(environment["YOVANELUM_REPLAY"]))
of_call = {number: (thread, value) for number, thread, value in expected}
print("as recorded there:", run() == of_call[40], file=found)
right = 0
tried = expected[:: int(os.environ["EVERY"])]
for number, thread, value in tried:
    gdb.execute("kill", to_string=True)
    gdb.execute("set environment YOVANELUM_REPLAY_STOP %d" % number)
    seen = run()
    right += seen == (thread, value)
    if seen != (thread, value):
        print("call %d is by %s of %s, and gdb saw %s" % (number, thread, value, seen), file=found)
switches = sum(one[1] != other[1] for one, other in zip(expected, expected[1:]))
print("right: %d of %d, with at least 5 switches: %s" % (right, len(tried), switches >= 5), file=found)
gdb.execute("kill", to_string=True)
gdb.execute("set environment YOVANELUM_REPLAY_STOP %d" % expected[len(expected) // 2][0])
run()
# The other desk waits meanwhile, longer than it does without a debugger.
time.sleep(4)
gdb.execute("continue", to_string=True)
with open(said) as file:
    print("after a pause, in the recorded order:", "calls in the recorded order; the test passed" in file.read(), file=found)
