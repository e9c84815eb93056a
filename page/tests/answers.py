"""Random commands and spoiled texts: for each, the page's debugger writes the same bytes as the native program."""
import base64
import json
import os
import random

import native
import runs

WORDS = ["back", "forward", "start", "end", "step", "state", "state json", "# nothing", "", "sideways", "goto 99999999999999999999", "x" * 300]
BATCH = 50
READY = """
    window.bytesOf = text => Uint8Array.from(atob(text), letter => letter.charCodeAt(0));
    window.answers = async cases => {
        const told = [];
        for (const [word, ...texts] of cases) told.push(await ttd[word](...texts.map(text => window.kept[text] ?? bytesOf(text))));
        return told;
    };
    window.kept = {};
"""


def packed(data):
    return base64.b64encode(data).decode()


def keep(tab, name, data):
    """Puts bytes into the page, so that many cases can name them."""
    tab.run(f"void (kept[{json.dumps(name)}] = bytesOf({json.dumps(packed(data))}))")


def prepare(tab, journals):
    tab.run(f"(() => {{{READY}}})()")
    for calls, journal in journals.items():
        keep(tab, f"run of {calls}", journal)


def condition(chance):
    actor, channel, handle, number = chance.randrange(5), chance.randrange(4), chance.randrange(6), chance.randrange(9)
    reply = chance.choice(["lagged", "closed", "new", "value", "flag", "no-word"])
    return chance.choice([f"actor {actor}", f"channel {channel}", f"reply {reply}", f"unread {channel} {handle} {number}",
                          f"lagging {channel} {handle}", f"unseen {channel} {handle}", f"version {channel} {number}",
                          f"closed {channel}", f"queue {channel} {number}"])


def command(chance, calls):
    turn = chance.random()
    if turn < 0.3:
        return f"{chance.choice(['rback', 'rforward'])} {condition(chance)}"
    if turn < 0.6:
        return f"{chance.choice(['goto', 'back', 'forward'])} {chance.randrange(calls + 3)}"
    return chance.choice(WORDS)


def commands(chance, calls, count):
    return ("\n".join(command(chance, calls) for _ in range(count)) + chance.choice(["", "\n"])).encode()


def compare(tab, asked, wanted):
    """Makes requests to the page, in batches. Each case is a request with its arguments: names of bytes, or bytes."""
    for start in range(0, len(asked), BATCH):
        told = tab.run(f"answers({json.dumps(asked[start:start + BATCH])})")
        for case, text, want in zip(asked[start:], told, wanted[start:]):
            assert text.encode() == want, f"{case[0]} {str(case[1:])[:300]}: the page says {text[:300]!r}, ttd {want[:300]!r}"


def random_commands(tab, journals):
    """1,000 sequences of random commands over the three runs."""
    chance = random.Random(1)
    asked, native_cases = [], []
    for calls, sequences, length in ((63, 870, 40), (10_000, 100, 40), (100_000, 30, 20)):
        for _ in range(sequences):
            given = commands(chance, calls, length)
            asked.append(["debug", f"run of {calls}", packed(given)])
            native_cases.append((journals[calls], given))
    compare(tab, asked, native.each(native.debug, native_cases))
    assert len(asked) == 1000


def spoiled(chance, text):
    """A text with a byte or two changed, or cut short, or with a line left out or twice."""
    turn = chance.random()
    if turn < 0.1:
        return text[:chance.randrange(len(text))]
    if turn < 0.3:
        lines = text.split(b"\n")
        at = chance.randrange(len(lines))
        lines[at:at + 1] = chance.choice([[], [lines[at]] * 2])
        return b"\n".join(lines)
    changed = bytearray(text)
    for _ in range(chance.randrange(1, 3)):
        at = chance.randrange(len(changed))
        changed[at] = chance.choice([changed[at] ^ 1, chance.randrange(48, 58), 10, 32, 255])
    return bytes(changed)


def spoiled_texts(tab, journals):
    """1,000 randomly spoiled texts: journals, and scripts with commands after them."""
    chance = random.Random(2)
    texts = [spoiled(chance, journals[63]) for _ in range(560)] + [spoiled(chance, journals[10_000]) for _ in range(40)]
    sessions = [spoiled(chance, runs.example()) + b"---\n" + commands(chance, 63, 10) for _ in range(400)]
    asked = [["debug", packed(text), packed(b"list\nstate json\n")] for text in texts] + [["session", packed(text)] for text in sessions]
    wanted = native.each(native.debug, [(text, b"list\nstate json\n") for text in texts])
    wanted += native.each(native.session, [(text,) for text in sessions])
    faulty = sum(answer.startswith((b"journal fault", b"script fault")) for answer in wanted)
    assert 500 < faulty < 1000, f"{faulty} of the texts are refused"
    compare(tab, asked, wanted)
    assert len(asked) == 1000


def example_sessions(tab, journals):
    """The sessions of examples/, with their own commands."""
    asked, wanted = [], []
    for name in sorted(os.listdir(os.path.join(native.TOP, "examples"))):
        text = runs.example_file(name)
        asked.append(["session", packed(text)])
        wanted.append(native.session(text))
    compare(tab, asked, wanted)
