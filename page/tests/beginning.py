"""A long journal: its first calls are shown while all of it is read."""
import base64
import functools
import json
import os
import zlib

import native
import opening
import runs
from opening import check_place

CALLS = 300_000

# Counts the bytes that are unpacked.
UNPACKED = """(() => {
    const { read } = ReadableStreamDefaultReader.prototype;
    window.unpacked = 0;
    ReadableStreamDefaultReader.prototype.read = async function () {
        const got = await read.call(this);
        window.unpacked += got.value?.length ?? 0;
        return got;
    };
})()"""

# Stores what is shown at first.
WATCH = """new MutationObserver((_, observer) => {
    observer.disconnect();
    const text = name => document.getElementById(name).textContent;
    const walk = document.getElementById('walk'), canvas = document.getElementById('picture');
    window.first = {
        unpacked: window.unpacked, isBusy: walk.getAttribute('aria-busy'), place: text('place'), facts: text('facts'), line: text('loss-line'), calls: text('calls'), state: text('state'),
        last: document.getElementById('slider').max, hasPicture: canvas.getContext('2d').getImageData(0, 0, canvas.width, canvas.height).data.some(byte => byte > 0),
    };
    if (window.first.isBusy) document.dispatchEvent(new KeyboardEvent('keydown', { key: 'ArrowRight' }));
}).observe(document, { subtree: true, attributes: true, attributeFilter: ['data-place'] })"""


# Whether the handles that were found in the first calls are those of the list, as far as these calls go.
SAME_HANDLES = """lives.opened[0].lives.every((those, channel) => those.length > 1 && those.every(({ kind, from, to }, handle) => {
    const listed = lives.listed[channel][handle], isAlive = to > lives.opened[0].lastPlace;
    return kind === listed.kind && from === listed.from && (isAlive ? listed.to >= to : listed.to === to);
}))"""


@functools.cache
def journal():
    return native.record(runs.large(CALLS))


def all_read(tab):
    tab.wait("!document.getElementById('walk').hidden && document.getElementById('walk').getAttribute('aria-busy') === null")


def first_calls(tab, folder, journals):
    """At first the state and the calls at the start are shown, without counts of what isn't read, and no key moves. They stay when all is read. They are
    there before all is unpacked, on the axis of all calls."""
    for source in (UNPACKED, WATCH):
        tab.call("Page.addScriptToEvaluateOnNewDocument", source=source)
    ask = opening.asker(journal())
    tab.load(opening.page_of(folder, "long.journal", journal()), 0)
    tab.wait("window.first")
    all_read(tab)
    first = tab.run("window.first")
    assert first["isBusy"] == "true" and first["hasPicture"] and first["last"] == str(CALLS), first
    assert first["unpacked"] < 1 << 20 and tab.run("window.unpacked") == len(journal()), (first["unpacked"], tab.run("window.unpacked"))
    assert first["place"] == "before call 1" and first["facts"] == "long.journal", first
    assert first["line"] == "the first calls: what was lost is counted when all of them are read", first
    assert [first["calls"], first["state"]] == [tab.text("calls"), tab.text("state")]
    assert f"{CALLS:,} calls" in tab.text("facts") and "lost" in tab.text("loss-line"), tab.text("facts")
    check_place(tab, ask, 0)
    tab.key("ArrowRight")
    check_place(tab, ask, 1)
    assert tab.run("lives.opened.length") == 2 and tab.run(SAME_HANDLES), "other handles were found in the first calls"


def far_places(tab, folder, journals):
    """Where the address leads past the first calls, nothing is shown before all is read."""
    tab.call("Page.addScriptToEvaluateOnNewDocument", source=WATCH)
    tab.load(opening.page_of(folder, "long.journal", journal()), CALLS - 5)
    tab.wait("window.first")
    assert tab.run("window.first.isBusy") is None
    check_place(tab, opening.asker(journal()), CALLS - 5)


def late_faults(tab, folder, journals):
    """A fault at the end of a long journal is shown in place of its first calls, and one that is truncated there opens up to its cut."""
    tab.load(opening.page_of(folder, "faulty.journal", journal()[:-4] + b"nonsense\nend\n"))
    tab.wait("!document.getElementById('refusal').hidden")
    assert tab.run("document.getElementById('walk').hidden"), "a refused run is shown"
    tab.load(opening.page_of(folder, "cut.journal", journal()[:-20]), 0)
    tab.wait("!document.getElementById('cut').hidden")
    all_read(tab)
    assert tab.text("place") == "before call 1", tab.text("place")


def packed_by_open(tab, folder, journals):
    """page/open packs a long journal and its names, and the page has both. A page whose file doesn't say how many calls there are shows the first of them too."""
    names = json.dumps({"channels": {"0": "ticks"}, "actors": {"0": "ticker"}}).encode()
    opening.put(folder, "long.names", names)
    path = opening.page_of(folder, "long.journal", journal())
    with open(path, "rb") as file:
        page = file.read()
    packed = sum(4 * len(zlib.compress(text)) / 3 for text in (journal(), names))
    assert len(page) - os.path.getsize(native.PAGE) < 1.05 * packed, (len(page), packed)
    counts = base64.b64encode(f"{CALLS} {len(journal())}".encode()) + b"\n"
    assert page.count(counts) == 1
    tab.call("Page.addScriptToEvaluateOnNewDocument", source=WATCH)
    for number, text in enumerate((page, page.replace(counts, b""))):
        tab.load(opening.put(folder, f"{number}.html", text), 0)
        tab.wait("window.first")
        all_read(tab)
        assert tab.run("[first.isBusy, first.last]") == ["true", str(CALLS)]
        assert tab.text("facts").startswith(f"long.journal · {CALLS:,} calls · 2 channels"), tab.text("facts")
        assert "ticks" in tab.text("state")


# In bytes: a long page, as one is whose journal isn't packed.
LONG_PAGE = 57_000_000
# What the sign of the work is in the first picture after the worker is made, with a clock that says until then that the page was asked for long ago; and
# when it is seen.
SIGN = """(() => {
    const { now } = performance, { Worker } = window;
    performance.now = () => 5_000;
    window.Worker = class extends Worker {
        constructor(...values) {
            super(...values);
            requestAnimationFrame(() => {
                performance.now = now;
                window.isWaiting = document.getElementById('busy').getAnimations().length > 0;
            });
        }
    };
    document.addEventListener('animationend', ({ target, timeStamp }) => {
        if (target.id !== 'busy' || window.sign) return;
        const isSeen = ['busy', 'busy-bar'].every(it => document.getElementById(it).checkVisibility({ checkOpacity: true }));
        window.sign = { isSeen, timeStamp, text: target.textContent, state: document.readyState, parts: document.querySelectorAll('#journal, .journal').length };
    });
})()"""


def unpacked_page(folder):
    """A long page as an earlier crate wrote it: the text of the journal in elements of its own, and more in its names than this page uses."""
    with open(native.PAGE, "rb") as file:
        page = file.read()
    pieces = [journal()[at:at + (1 << 20)] for at in range(0, len(journal()), 1 << 20)]
    parts = [b'<script type="text/plain" %s="journal">\n%s</script>\n' % (b"class" if i else b"id", piece) for i, piece in enumerate(pieces)]
    names = json.dumps({"channels": {}, "later": "x" * ((LONG_PAGE - len(page) - len(journal())) // 4 * 3)}).encode()
    run = b'<script type="text/plain" id="run">\n%s\n%s\n</script>\n' % (base64.b64encode(b"long.journal"), base64.b64encode(names))
    return opening.put(folder, "unpacked.html", page.replace(b'<script type="text/plain" id="run"></script>\n', run + b"".join(parts)))


def sign_while_read(tab, folder, journals):
    """While a long page is read, a sign with a bar says so from the first picture on, as far as the page was asked for a tenth of a second ago."""
    path = unpacked_page(folder)
    assert os.path.getsize(path) >= LONG_PAGE
    tab.call("Page.addScriptToEvaluateOnNewDocument", source=SIGN)
    tab.load(path, 0)
    all_read(tab)
    sign = tab.run("window.sign")
    print(f"  a page of {LONG_PAGE / 1e6:.0f} MB: its sign is seen after {sign['timeStamp']:.0f} ms")
    assert sign["isSeen"] and sign["text"] == "reading the page" and sign["state"] == "loading" and sign["parts"] == 0, sign
    assert not tab.run("window.isWaiting"), "the sign waits, though the page was asked for long ago"
    assert tab.text("facts").startswith(f"long.journal · {CALLS:,} calls"), tab.text("facts")


TESTS = [sign_while_read, first_calls, far_places, late_faults, packed_by_open]
