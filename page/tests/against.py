"""Two runs of one test: what `yovanelum why --against` and the page's worker find over random pairs of runs is that of a plain model."""
import json
import os
import random
import subprocess

import failing
import layout
import native
import opening
from jumps import CLIPBOARD

HERE = os.path.dirname(os.path.realpath(__file__))
SENDS = ("send", "send-replace", "modify")
NAMES = ["shop", "audit", 'the "third"', "b\u00e9ta"]


def program(chance, caller, channels):
    """The calls of a caller, in their order: each with its channel, and what follows the channel in a script. It uses its own handles by their names."""
    made, calls = [[], []], []
    for number in range(chance.randrange(1, 14)):
        channel = chance.randrange(len(channels))
        is_watch = channels[channel].startswith("watch")
        mine = made[channel]
        # Some receivers are those of other callers, which only their numbers name.
        readers = ["1", *(name for kind, name in mine if kind == "receiver"), *(["2", "3"] if chance.random() < 0.2 else [])]
        senders = ["0", *(name for kind, name in mine if kind == "sender")]
        turn = chance.random()
        if turn < 0.15:
            word, kind = chance.choice([("subscribe", "receiver"), ("clone-sender", "sender"), ("clone-receiver" if is_watch else "resubscribe", "receiver")])
            name = f"{'abcd'[caller]}{number}"
            handle = chance.choice(readers if word in ("clone-receiver", "resubscribe") else senders)
            calls.append((channel, f"{word} {handle} as {name}"))
            mine.append((kind, name))
        elif turn < 0.5:
            calls.append((channel, f"send {chance.choice(senders)} {chance.randrange(1, 5)}"))
        elif turn < 0.9:
            of_watch, of_broadcast = ["update", "borrow", "has-changed", "changed", "receiver-count"], ["try-recv", "recv", "receiver-len"]
            word = chance.choice(of_watch if is_watch else of_broadcast)
            calls.append((channel, f"{word} {chance.choice(senders if word == 'receiver-count' else readers)}"))
        else:
            calls.append((channel, f"drop {chance.choice(readers + senders)}"))
    return calls


def mutated(chance, calls):
    """The same program, or one in which a call is another one, is left out or sends another value."""
    calls = list(calls)
    if chance.random() < 0.6:
        return calls
    at = chance.randrange(len(calls))
    channel, words = calls[at]
    if " as " in words:
        return calls
    calls[at:at + 1] = chance.choice([[], [(channel, "send 0 9")], [(channel, "drop 1")], [(channel, words), (channel, words)]])
    return calls


def run_of(chance, programs, channels, style, shift):
    """A journal of these programs, with their calls in a random order, and its names. Callers, channels and values may have other numbers in it."""
    callers, numbers = list(range(len(programs))), list(range(len(channels)))
    if style["named"]:
        chance.shuffle(callers)
    if style["made_by"]:
        chance.shuffle(numbers)
    left = [list(calls) for calls in programs]
    lines = [channels[numbers.index(place)] for place in range(len(channels))] + [f"actors {len(programs)}"]
    while any(left):
        caller = chance.choice([it for it, calls in enumerate(left) if calls])
        channel, words = left[caller].pop(0)
        parts = words.split(" ")
        if parts[0] == "send":
            parts[2] = str(int(parts[2]) + shift)
        lines.append(f"{callers[caller]} {numbers[channel]} {' '.join(parts)}")
    journal = native.record(("\n".join(lines) + "\n").encode()).decode()
    return journal, names_of(programs, callers, numbers, style, shift)


def names_of(programs, callers, numbers, style, shift):
    names = {"version": 3, "actors": {}, "locations": [["tests/bus.rs", line, 5] for line in range(1, 4)]}
    if style["named"]:
        names["actors"] = {str(callers[it]): NAMES[it] if it in style["own"] else f"task {callers[it]}" for it in range(len(programs))}
        names["unnamed"] = [callers[it] for it in range(len(programs)) if it not in style["own"]]
        names["tasks"] = {str(callers[it]): style["tasks"][it] for it in range(len(programs)) if it not in style["own"]}
    if style["made_by"]:
        names["made_by"] = {str(number): style["makers"][channel] for channel, number in enumerate(numbers)}
    if style["texts"]:
        names["values"] = {str(number): {str(value + shift): f"value \"{value}\"" for value in style["texts"]} for number in numbers}
    if shift:
        names["failed"] = True
    return names


def pair(chance):
    """Two runs of programs that are the same, or differ a little."""
    channels = [chance.choice(["broadcast 1", "broadcast 2", "broadcast 4", "watch 0"]) for _ in range(2)]
    programs = [program(chance, caller, channels) for caller in range(chance.randrange(1, 5))]
    texts = chance.choice([[], range(0, 12), [1, 3]])
    style = {
        "named": chance.random() < 0.7, "made_by": chance.random() < 0.5, "texts": texts, "makers": [["test", 0], chance.choice([["test", 1], [None, 0]])],
        "own": {it for it in range(4) if chance.random() < 0.7}, "tasks": [chance.randrange(3) for _ in range(4)],
    }
    others = [mutated(chance, calls) for calls in programs]
    shift = 20 if len(texts) > 2 and not any("watch" in it for it in channels) else 0
    return run_of(chance, programs, channels, style, shift), run_of(chance, others, channels, style, 0)


class Side:
    """A run as the model has it, which looks at all earlier calls for each call."""

    def __init__(self, journal, names, both):
        lines = journal.splitlines()
        steps = lines.index("steps")
        self.heads, self.names, self.both = lines[1:steps], names, both
        self.calls = []
        for line in lines[steps + 1:-1]:
            call, reply = line.split(" = ")
            _, actor, channel, word, handle, *args = call.split(" ")
            self.calls.append({"actor": int(actor), "channel": int(channel), "word": word, "handle": int(handle), "args": args, "reply": reply.split(" ")})

    def label(self, actor):
        if not self.both["named"]:
            return actor
        unnamed = self.names.get("unnamed", [])
        if str(actor) in self.names["actors"] and actor not in unnamed:
            return self.names["actors"][str(actor)]
        return ("source", self.names.get("tasks", {}).get(str(actor)))

    def caller(self, actor):
        firsts = list(dict.fromkeys(call["actor"] for call in self.calls))
        earlier = firsts[:firsts.index(actor)]
        return self.label(actor), sum(self.label(it) == self.label(actor) for it in earlier)

    def channel(self, number):
        made_by = self.names["made_by"].get(str(number)) if self.both["made_by"] else None
        return self.heads[number].split(" ")[0], made_by or number

    def made(self, channel):
        """The handles of a channel, each with its kind, the caller that made it, how many that had made before, and at which index of the calls."""
        handles = [("sender", "first", 0, -1), ("receiver", "first", 0, -1)]
        for index, call in enumerate(self.calls):
            if call["channel"] == channel and call["reply"][0] == "new":
                kind = "sender" if call["word"] in ("clone-sender", "upgrade") else "weak" if call["word"] in ("downgrade", "clone-weak") else "receiver"
                caller = self.caller(call["actor"])
                handles.append((kind, caller, sum(it[1] == caller for it in handles), index))
        return handles

    def handle(self, index):
        call = self.calls[index]
        handles = self.made(call["channel"])
        if call["handle"] >= len(handles) or handles[call["handle"]][3] >= index:
            return "none", call["handle"], 0
        return handles[call["handle"]][:3]

    def before(self, index):
        """How many sends come before a call on its channel, if that says anything of it, and whether the channel is closed."""
        channel = self.calls[index]["channel"]
        earlier = [it for it in range(index) if self.calls[it]["channel"] == channel]
        sends = sum(self.calls[it]["word"] in SENDS for it in earlier)
        word = self.calls[index]["word"]
        senders = 1 + sum(self.calls[it]["word"] in ("clone-sender", "upgrade") and self.calls[it]["reply"][0] == "new" for it in earlier)
        gone = sum(self.calls[it]["reply"][0] == "dropped" and self.handle(it)[0] == "sender" for it in earlier)
        counts = word in SENDS or word == "subscribe" or self.handle(index)[0] == "receiver"
        return sends if counts else None, senders == gone

    def value(self, channel, value):
        return self.names.get("values", {}).get(str(channel), {}).get(value, int(value))

    def sent(self, index):
        call = self.calls[index]
        return self.value(call["channel"], call["args"][0]) if call["args"] else None

    def reply(self, index):
        call = self.calls[index]
        word, *rest = call["reply"]
        return (word,) if word == "new" else (word, self.value(call["channel"], rest[0])) if word in ("value", "old", "no-receivers") else (word, *rest)

    def place(self, caller, nth):
        those = [index for index, call in enumerate(self.calls) if self.caller(call["actor"]) == caller]
        return those[nth] if nth < len(those) else None


def model(here, there):
    """What differs, as the documentation says."""
    both = {key: all(it[1].get({"named": "actors"}.get(key, key)) for it in (here, there)) for key in ("named", "made_by")}
    here, there = Side(*here, both), Side(*there, both)
    found, partners = [], set()
    for a, call in enumerate(here.calls):
        nth = sum(it["actor"] == call["actor"] for it in here.calls[:a])
        b = there.place(here.caller(call["actor"]), nth)
        partners.add(b)
        kind = differs(here, a, there, b)
        if kind:
            found.append({"kind": kind, "here": a + 1, "there": None if b is None else b + 1})
    return found + [{"kind": "more", "here": None, "there": b + 1} for b in range(len(there.calls)) if b not in partners]


def differs(here, a, there, b):
    if b is None:
        return "missing"
    what = lambda side, index: (side.channel(side.calls[index]["channel"]), side.calls[index]["word"], side.handle(index))
    if what(here, a) != what(there, b):
        return "other"
    if here.before(a) != there.before(b):
        return "order"
    if here.sent(a) != there.sent(b):
        return "value"
    return None if here.reply(a) == there.reply(b) else "reply"


def by_node(pairs):
    """What the page's worker finds in each pair."""
    lines = "".join(json.dumps([{"journal": journal, "names": json.dumps(names)} for journal, names in it]) + "\n" for it in pairs)
    made = subprocess.run(["node", f"{HERE}/against_runs.js"], input=lines, capture_output=True, text=True, check=True)
    return [json.loads(line) for line in made.stdout.splitlines()]


def by_command(folder, runs):
    """What `yovanelum why --against --json` finds in a pair, and its lines without `--json`."""
    for name, (journal, names) in zip("ab", runs):
        with open(f"{folder}/{name}.journal", "w", encoding="utf-8") as file:
            file.write(journal)
        with open(f"{folder}/{name}.names", "w", encoding="utf-8") as file:
            json.dump(names, file)
    words = ("why", f"{folder}/a.journal", "--against", f"{folder}/b.journal")
    found = json.loads(failing.command(*words, "--json"))
    assert failing.command(*words).splitlines() == found["text"]
    return found


def same_as_a_plain_model(tab, folder, journals):
    """Over random pairs of runs of the same programs, the command and the page's worker find the calls that the model says differ, and say the same."""
    failing.said()
    chance = random.Random(68)
    pairs = [pair(chance) for _ in range(native.rounds(100, 300))]
    kinds = set()
    for number, (runs, made) in enumerate(zip(pairs, by_node(pairs), strict=True)):
        wanted = model(*runs)
        assert made["differing"] == wanted, f"pair {number}: {made['differing']}, and not {wanted}"
        kinds.update(it["kind"] for it in wanted)
        if number < native.rounds(15, 60):
            found = by_command(folder, runs)
            assert found["differing"] == wanted, f"pair {number}: {found['differing']}, and not {wanted}"
            assert found["text"] == made["text"], f"pair {number}: {found['text']}, and not {made['text']}"
    assert not any(it["differing"] for it in by_node([(here, here) for here, _ in pairs])), "a run differs from itself"
    assert kinds == {"missing", "other", "order", "value", "reply", "more"}, kinds


FAILED = """0 0 subscribe 0 as audit
1 0 send 0 1
2 0 recv 2
1 0 send 0 2
1 0 send 0 3
1 0 send 0 4
2 0 recv 2
1 0 drop 0"""
# The audit received in time.
PASSED = """0 0 subscribe 0 as audit
1 0 send 0 1
2 0 recv 2
1 0 send 0 2
2 0 recv 2
1 0 send 0 3
2 0 recv 2
1 0 send 0 4
2 0 recv 2
1 0 drop 0"""


def files_of(folder, name, calls, **more):
    """The files of a run: its journal, and its names."""
    journal = native.record(f"broadcast 2\nactors 3\n{calls}\n".encode())
    names = {"version": 3, "actors": {"0": "main", "1": "checkout", "2": "audit"}, "channels": {"0": "orders"}, **more}
    return [opening.put(folder, f"{name}.journal", journal), opening.put(folder, f"{name}.names", json.dumps(names).encode())]


def choose(tab, field, files):
    root = tab.call("DOM.getDocument")["root"]["nodeId"]
    found = tab.call("DOM.querySelector", nodeId=root, selector=field)["nodeId"]
    tab.call("DOM.setFileInputFiles", nodeId=found, files=files)


def shown(tab):
    """What the page says of two runs, as lines."""
    tab.wait("!document.getElementById('against').hidden")
    return [tab.text("against-line"), *tab.run("[...document.querySelectorAll('#against .line')].map(line => line.textContent)")]


def marks(tab, canvas, colour):
    """In which columns of a canvas, of ten pixels each, there are pixels of a colour of the style sheet."""
    return tab.run(f"""(() => {{
        const probe = document.createElement("canvas").getContext("2d");
        probe.fillStyle = getComputedStyle(document.documentElement).getPropertyValue("--{colour}");
        probe.fillRect(0, 0, 1, 1);
        const wanted = probe.getImageData(0, 0, 1, 1).data.slice(0, 3).join();
        const canvas = document.getElementById("{canvas}");
        const {{ data, width }} = canvas.getContext("2d").getImageData(0, 0, canvas.width, canvas.height);
        const found = new Set();
        for (let i = 0; i < data.length; i += 4) if (data[i + 3] === 255 && data.slice(i, i + 3).join() === wanted) found.add(Math.floor((i / 4) % width / 10));
        return [...found].sort((a, b) => a - b);
    }})()""")


def both_in_the_page(tab, folder, journals):
    """Two runs that are dropped together are compared: the failed one is the opened one, and the first call that differs is said as by `why`, marked in
    both pictures and gone to. Their common calls stand in the same columns."""
    failing.said()
    failed, passed = files_of(folder, "failed", FAILED, failed=True), files_of(folder, "passed", PASSED)
    tab.load(native.PAGE)
    tab.wait("window.ttd")
    tab.drop(*passed, *failed)
    tab.wait("!document.getElementById('choice').hidden")
    tab.click("#compare-both")
    wanted = failing.command("why", failed[0], "--against", passed[0]).splitlines()
    assert wanted[0] == "the first difference: call 7, `audit` received before 2 sends in the passing run", wanted
    assert shown(tab) == [failing.shown(wanted[0]), *wanted[1:]]
    opening.settle(tab, 7)
    assert tab.text("facts").startswith("failed.journal"), tab.text("facts")
    assert tab.text("other-line") == "the passing run: passed.journal"
    tab.wait("document.getElementById('other-picture').width > 0")
    rings = [marks(tab, name, "hit") for name in ("cursor", "other-picture")]
    assert rings[0] and rings[1], rings
    # Each call of both runs in the same order stands in the same column, as all sends do.
    sends = [marks(tab, name, "actor-1") for name in ("picture", "other-picture")]
    near = lambda column, others: min(abs(column - it) for it in others) <= 1
    assert sends[0] and all(near(it, sends[1]) for it in sends[0]) and all(near(it, sends[0]) for it in sends[1]), sends
    tab.run(f"void {CLIPBOARD}")
    tab.click("#report")
    tab.wait("window.copied")
    assert "```text\n" + "\n".join(wanted) + "\n```" in tab.run("copied"), tab.run("copied")
    tab.click("#against .line:nth-child(1) button")
    opening.settle(tab, 5)
    tab.key("d")
    opening.settle(tab, 7)
    tab.click("#against-close")
    assert tab.run("document.getElementById('other').hidden && document.getElementById('against').hidden")
    assert marks(tab, "cursor", "hit") == []


def with_another(tab, folder, journals):
    """An opened run is compared with a file that is chosen, which may be refused. A run that goes on after this one has its calls behind it."""
    failed, passed = files_of(folder, "failed", FAILED, failed=True), files_of(folder, "passed", PASSED)
    short = files_of(folder, "short", "\n".join(FAILED.split("\n")[:3]))
    broken = opening.put(folder, "broken.journal", b"ttd-journal 2\nbroadcast 0\n")
    opening.load_first(tab, opening.page_of(folder, "short.journal", open(short[0], "rb").read()))
    choose(tab, "#other-file", [broken])
    tab.wait('document.getElementById("notice").textContent.startsWith("broken.journal can\'t be compared. Line 2: the ")')
    choose(tab, "#other-file", failed)
    lines = shown(tab)
    assert lines[0] == "the first difference: call 4 of the failing run, checkout doesn't make it here", lines
    assert lines[-1] == "3 calls here, 8 calls there: 5 only there", lines
    tab.wait("document.querySelector('#slider').max === '3'")
    choose(tab, "#other-file", passed)
    tab.wait("document.getElementById('against-box').textContent.endsWith('7 only there')")
    assert tab.text("other-line") == "the other run: passed.journal"
    choose(tab, "#other-file", short)
    tab.wait("document.getElementById('against-line').textContent === 'no call differs'")
    # Another run that is opened is compared with none.
    choose(tab, "#file", failed)
    tab.wait("document.getElementById('against').hidden && document.getElementById('facts').textContent.startsWith('failed.journal')")


def kept_in_the_address(tab, folder, journals):
    """The address says which run was compared, and shows both again at the same place after a reload. A browser that doesn't have that run names its file,
    and compares once that is chosen."""
    failed, passed = files_of(folder, "failed", FAILED, failed=True), files_of(folder, "passed", PASSED)
    path = opening.page_of(folder, "failed.journal", open(failed[0], "rb").read())
    tab.load(path, 2)
    opening.settle(tab, 2)
    choose(tab, "#other-file", passed)
    lines = shown(tab)
    opening.settle(tab, 7)
    tab.key("ArrowLeft")
    opening.settle(tab, 6)
    tab.wait("location.hash.includes('call=6') && location.hash.includes('against=')")
    address = tab.run("location.hash")
    assert address.endswith("+passed.journal"), address
    tab.call("Page.reload")
    tab.browser.event("Page.loadEventFired", tab.session)
    assert shown(tab) == lines and tab.text("other-line") == "the passing run: passed.journal"
    opening.settle(tab, 6)
    tab.wait(f"location.hash === {json.dumps(address)}")
    tab.click("#against-close")
    tab.wait("!location.hash.includes('against=')")
    # The same link in a browser that has kept nothing.
    tab.run("new Promise(done => { indexedDB.deleteDatabase('yovanelum').onsuccess = done; })")
    tab.load(path)
    opening.settle(tab)
    tab.run(f"location.hash = {json.dumps(address)}")
    tab.wait("document.getElementById('notice').textContent !== ''")
    wanted = "This link compares with passed.journal, which this browser doesn't have: choose that file by \u201ccompare\u2026\u201d."
    assert tab.text("notice") == wanted, tab.text("notice")
    opening.settle(tab, 6)
    choose(tab, "#other-file", failed)
    tab.wait("document.getElementById('notice').textContent === 'failed.journal isn\\'t the run that the link compares with.'")
    tab.load(path)
    opening.settle(tab)
    tab.run(f"location.hash = {json.dumps(address)}")
    tab.wait("document.getElementById('notice').textContent !== ''")
    choose(tab, "#other-file", passed)
    assert shown(tab) == lines
    opening.settle(tab, 6)


def in_each_window(tab, folder, journals):
    """With two runs, too, no part lies over another or is cut off, texts can be read, and each picture has an eighth of a window that isn't low."""
    texts = {"0": {str(number): f"OrderPlaced {{ id: {number} }}" for number in range(5)}}
    failed, passed = files_of(folder, "failed", FAILED, failed=True, values=texts), files_of(folder, "passed", PASSED, values=texts)
    for width, height in [*layout.SIZES, *layout.FAR_SIZES]:
        tab.resize(width, height)
        tab.load(native.PAGE)
        tab.wait("window.ttd")
        choose(tab, "#file", [*failed, *passed])
        tab.wait("!document.getElementById('choice').hidden")
        tab.click("#compare-both")
        shown(tab)
        opening.settle(tab, 7)
        for scheme in ("light", "dark"):
            tab.prefer(scheme)
            for part in layout.parts_of(tab):
                if part:
                    tab.click(f"#tabs [data-tab={part}]")
                tab.run("new Promise(done => requestAnimationFrame(() => requestAnimationFrame(done)))")
                faults = tab.run(layout.MEASURE) + tab.run(layout.CONTRASTS)
                assert faults == [], (width, height, scheme, part, faults[:6])
                if part in (None, "picture") and height >= 700:
                    heights = tab.run("['pane', 'other-pane'].map(name => document.getElementById(name).clientHeight)")
                    assert min(heights) >= height / 8, (width, height, heights)
    tab.prefer("light")
    tab.resize(1440, 920)


TESTS = [same_as_a_plain_model, both_in_the_page, with_another, kept_in_the_address, in_each_window]
