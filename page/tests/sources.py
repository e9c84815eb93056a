"""What a file of names has: the places of calls in the sources, names of handles, tasks, and the calls that waited."""
import json

import against
import native
import opening
from hands import GUTTER, MARGIN
from opening import check_place
from owners import drawn_texts

SCRIPT = b"broadcast 2\nactors 2\n1 0 subscribe 0\n0 0 send 0 7\n1 0 recv 2\n"
NAMES = {
    "version": 2, "locations": [["src/bus.rs", 15, 9], ["src/worker.rs", 30, 5]], "made": {"0": {"2": 1}}, "calls": {"0": [1, 0, None]},
    "tasks": {"1": 1}, "waiting": [{"actor": 1, "channel": 0, "handle": 2, "call": "recv", "since": 3, "location": 0}],
}


def named_page(folder, name, names, script=SCRIPT):
    opening.put(folder, f"{name}.names", json.dumps(names).encode())
    return opening.page_of(folder, f"{name}.journal", native.record(script))


def source_lines(tab, folder, journals):
    """The place of a call in the sources is in the sentence, in the list, and in the call in whole, where the names have it."""
    opening.load(tab, named_page(folder, "sources", NAMES))
    tab.key("i")
    for place, source in ((1, "src/worker.rs:30"), (2, "src/bus.rs:15"), (3, None)):
        tab.key("ArrowRight")
        opening.settle(tab, place)
        assert (f" at {source}" in tab.text("sentence")) == (source is not None), tab.text("sentence")
        assert (f"called at {source}" in tab.text("whole-call")) == (source is not None), tab.text("whole-call")
        row = tab.run(f"(row => row && [row.textContent, row.title])(document.querySelector('#calls [data-place=\"{place}\"] small'))")
        assert row == (source and [source.removeprefix("src/"), source]), (place, row)
    assert "receiver 2, created at src/worker.rs:30" in tab.text("whole-call"), tab.text("whole-call")
    assert tab.text("sentence").startswith("a1 actor 1, src/worker.rs:30 on channel 0: recv 2"), tab.text("sentence")


def waiting_calls(tab, folder, journals):
    """The calls that waited when the names were written are above the run, in the table, and drawn after the last place."""
    opening.load(tab, named_page(folder, "waiting", NAMES))
    told = "1 call waits: actor 1, src/worker.rs:30 waits in recv of actor 1, src/worker.rs:30 · receiver 2 on channel 0 since call 3, at src/bus.rs:15"
    assert tab.text("facts").endswith(told), tab.text("facts")
    assert "recv waits" in drawn_texts(tab)
    # The wait is a line from the call after which it began to the end of the run.
    column = (tab.run("document.getElementById('picture').clientWidth") - GUTTER - MARGIN) / 5
    marked = [it * 10 - GUTTER for it in against.marks(tab, "picture", "actor-1")]
    along, before = [[x for x in marked if low * column < x < high] for low, high in ((3.5, 4.5 * column - 60), (2.7, 3.4 * column))]
    assert len(along) > 5 and not before, (marked, column)
    assert "waits in recv since call 3" in tab.text("table-rows")
    holders = {
        ", for a look taken at src/worker.rs:30 by main": {"actor": 0, "location": 1}, ", for a look taken by main": {"actor": 0, "location": None},
        ", for the lock of the value": {"actor": None, "location": None},
    }
    for number, (said, holder) in enumerate(holders.items()):
        held = {**NAMES, "actors": {"0": "main"}, "waiting": [{**NAMES["waiting"][0], "held_by": holder}]}
        opening.load(tab, named_page(folder, f"held{number}", held))
        assert tab.text("facts").endswith(f", at src/bus.rs:15{said}"), tab.text("facts")
    # One that was woken is not told to wait.
    woken = {**NAMES, "waiting": [{**NAMES["waiting"][0], "woken": True}]}
    opening.load(tab, named_page(folder, "woken", woken))
    said = "1 call began to wait: actor 1, src/worker.rs:30 waited in recv of actor 1, src/worker.rs:30 · receiver 2 on channel 0 since call 3, at src/bus.rs:15, and was woken"
    assert tab.text("facts").endswith(said), tab.text("facts")
    assert "recv was woken" in drawn_texts(tab) and "recv waits" not in drawn_texts(tab)
    assert "waited in recv since call 3, and was woken" in tab.text("table-rows"), tab.text("table-rows")
    opening.load(tab, named_page(folder, "not-woken", {**NAMES, "waiting": [{**NAMES["waiting"][0], "woken": False}]}))
    assert tab.text("facts").endswith(told), tab.text("facts")
    quiet = {key: value for key, value in NAMES.items() if key != "waiting"}
    opening.load(tab, named_page(folder, "quiet", quiet))
    assert "waits" not in tab.text("facts") + tab.text("table-rows") and "recv waits" not in drawn_texts(tab)


def calls_that_waited(tab, folder, journals):
    """The calls of `closed` and `wait_for` have these names, where the names of the run say which they are. The journal has the words of others."""
    script = b"broadcast 1\nwatch 5\n0 0 drop 1\n0 0 receiver-count 0\n0 0 receiver-count 0\n0 1 update 1\n0 1 update 1\n"
    opening.load(tab, named_page(folder, "waited", {"waited": {"0": [2], "1": [0]}}, script), 0)
    calls = {2: "receiver-count 0 → count 0", 3: "closed 0 → count 0", 4: "wait_for 1 → value 5", 5: "update 1 → value 5"}
    for place, call in calls.items():
        tab.run(f"document.querySelector('#calls [data-place=\"{place}\"]').click()")
        opening.settle(tab, place)
        assert f": {call}" in tab.text("sentence"), tab.text("sentence")
        row = tab.run(f"document.querySelector('#calls [data-place=\"{place}\"] span:nth-of-type(2)').textContent")
        assert row.endswith(f": {call}"), row


def wrong_sources(tab, folder, journals):
    """Names of a later version, of another shape, or with another number of calls are reported, and the run is shown by its numbers."""
    wrong = {
        "isn't read: it has version 6, and this page reads versions up to 5.": {"version": 6, "calls": 1},
        'isn\'t read: its key "account" has no "facts" with "text" and "places".': {"account": {"version": 1, "unknown": [], "facts": [{"kind": "loss"}]}},
        "isn't read: its version is no number.": {"version": "2.0"}, "isn't read: its tasks are no": {"tasks": {"1": None}},
        "isn't read: its locations are no": {"locations": [["a", 1]]}, "isn't read: its calls are no": {"calls": {"0": ["x"]}},
        "isn't read: its waiting calls": {"waiting": [{"actor": 1}]},
        "isn't of this run: it has 2 calls of channel 0, and this run has 3.": {"calls": {"0": [1, 1]}},
    }
    for told, change in wrong.items():
        opening.load(tab, named_page(folder, "wrong", {**NAMES, **change}), 1)
        assert told in tab.text("notice"), (told, tab.text("notice"))
        check_place(tab, opening.asker(native.record(SCRIPT)), 1)


def fnv1a(data):
    """The published 64-bit FNV-1a hash."""
    sum = 0xCBF29CE484222325
    for byte in data:
        sum = (sum ^ byte) * 0x100000001B3 % 2**64
    return f"{sum:016x}"


def names_of_another_journal(tab, folder, journals):
    """Names with the checksum of another journal aren't used, though all in them fits. A script and a truncated journal have no such text."""
    journal = native.record(SCRIPT)
    stamps_later = journal.replace(b"\n3 ", b"\n4 ")
    assert fnv1a(b"foobar") == "85944171f73967e8" and stamps_later != journal
    names = {**NAMES, "journal": fnv1a(journal)}
    refused = "isn't of this run: it was written beside another journal."
    opening.put(folder, "own.names", json.dumps(names).encode())
    for opened, is_refused in {"own.journal": False, "other.journal": True}.items():
        opening.put(folder, "other.names", json.dumps(names).encode())
        opening.load(tab, opening.page_of(folder, opened, stamps_later if is_refused else journal), 1)
        assert (refused in tab.text("notice")) == is_refused, (opened, tab.text("notice"))
        assert (" at src/worker.rs:30" in tab.text("sentence")) != is_refused, (opened, tab.text("sentence"))
    # The last line of a truncated journal isn't there, and a script has another text.
    for opened, text in {"cut.journal": journal[:-4], "cut.script": SCRIPT}.items():
        opening.put(folder, "cut.names", json.dumps({**names, "journal": fnv1a(b"foobar")}).encode())
        opening.load(tab, opening.page_of(folder, opened, text), 1)
        assert " at src/worker.rs:30" in tab.text("sentence"), (opened, tab.text("sentence"))


TESTS = [names_of_another_journal, source_lines, waiting_calls, calls_that_waited, wrong_sources]
