"""What is dropped or chosen opens: pages with a run inside, folders, and zips. What is hostile in them neither runs nor fills the memory."""
import base64
import gzip
import io
import json
import os
import zipfile
import zlib

import native
import opening
import real_runs
from chosen_files import SCRIPT, choose, empty_page, told

SLOT = b'<script type="text/plain" id="run"></script>\n'
PIECE = 1 << 16
MOST = 256_000_000

# What would run or load, if anything of a page did.
HOSTILE = b"""<script>window.ran = 1; fetch("https://example.org/x");</script>
<img src="https://example.org/y" onerror="window.ran = 2"><iframe src="data:text/html,<script>parent.ran = 3</script>"></iframe>
"""
UNTOUCHED = "[window.ran, performance.getEntriesByType('resource').filter(it => !it.name.startsWith('blob:')).length, document.querySelector('img, iframe')]"


def element(attributes, text):
    return f'<script type="text/plain" {attributes}>\n'.encode() + text + b"</script>\n"


def pieces(name, attributes, text):
    """A text in several elements, as a long one is."""
    parts = [text[at:at + PIECE] for at in range(0, len(text), PIECE)]
    return b"".join(element(f'class="{name}"' if i else attributes, part) for i, part in enumerate(parts))


def page_with(folder, name, run, journal, names=None, around=b""):
    """The file of a page with a run inside that is packed, by zlib, in base64."""
    with open(native.PAGE, "rb") as file:
        before, behind = file.read().split(SLOT)
    parts = element('id="run"', base64.b64encode(run.encode()) + b"\n")
    for kind, text in (("names", names), ("journal", journal)):
        if text is not None:
            parts += pieces(kind, f'id="{kind}" class="packed"', base64.b64encode(zlib.compress(text)))
    return opening.put(folder, name, around.join([before, parts, behind]))


def zip_of(folder, name, files):
    """A zip of files, each by its name with its bytes."""
    data = io.BytesIO()
    with zipfile.ZipFile(data, "w", zipfile.ZIP_DEFLATED) as made:
        for inside, contents in files:
            made.writestr(inside, contents)
    return opening.put(folder, name, data.getvalue())


def read(path):
    with open(path, "rb") as file:
        return file.read()


def shows(tab, name, channel="event bus"):
    """The run of this file is shown, with its names."""
    told(tab, "facts", f"{name} · ")
    opening.settle(tab)
    assert channel in tab.text("state"), tab.text("state")[:100]


def choices(tab):
    tab.wait("!document.getElementById('choice').hidden")
    return tab.run("[...document.querySelectorAll('#choice-list li')].map(it => [it.querySelector('button').textContent, it.querySelector('b')?.textContent])")


def pages(tab, folder, journals):
    """A page opens as its run does, whether that is packed or not, by a drop and by the field. A page with a packed run shows it, too."""
    journal, names = real_runs.bus()
    opening.put(folder, "bus.names", names)
    plain = opening.page_of(folder, "bus.journal", journal)
    packed = page_with(folder, "packed.html", "bus.journal", journal, names)
    for path in (plain, packed):
        for take in (tab.drop, lambda path: choose(tab, path)):
            empty_page(tab)
            take(path)
            shows(tab, os.path.basename(path))
            assert tab.text("facts").startswith(f"{os.path.basename(path)} · 648 calls · 2 channels"), tab.text("facts")
    opening.load_first(tab, packed)
    shows(tab, "bus.journal")
    tab.drop(native.PAGE)
    told(tab, "notice", "yovanelum.html can't be read: it is a page without a run.")


def hostile_pages(tab, folder, journals):
    """Nothing of a page that is dropped runs or is loaded. One whose run is damaged, or unpacks to too much, is refused."""
    journal, names = real_runs.bus()
    empty_page(tab)
    tab.drop(page_with(folder, "scripts.html", "bus.journal", journal, names, HOSTILE))
    shows(tab, "scripts.html")
    assert tab.run(UNTOUCHED) == [None, 0, None], tab.run(UNTOUCHED)
    markup = json.dumps({"channels": {"0": "<img src=x onerror=ran=4>"}}).encode()
    tab.drop(page_with(folder, "markup.html", "<b>x</b>.journal", journal, markup))
    shows(tab, "markup.html", "<img")
    assert tab.run(UNTOUCHED) == [None, 0, None], tab.run(UNTOUCHED)
    whole = read(page_with(folder, "whole.html", "bus.journal", journal, names))
    start = whole.index(b'id="journal" class="packed">') + 100
    for name, data in (("cut", whole[:start]), ("other", whole[:start] + b"<b>" + whole[start:]), ("noise", whole[:start] + b"AAAA" * 9 + whole[start + 36:])):
        tab.drop(opening.put(folder, f"{name}.html", data))
        told(tab, "notice", f"{name}.html can't be read: its run can't be read")
    tab.drop(page_with(folder, "bomb.html", "bus.journal", bytes(MOST + 1)))
    told(tab, "notice", "bomb.html can't be read: its run can't be read: it unpacks to more than 256 MB.")
    shows(tab, "markup.html", "<img")


def folders(tab, folder, journals):
    """A folder opens as its runs do, by a drop and by its field. A page beside the journal that it has inside is the same run. All else is left alone."""
    journal, names = real_runs.bus()
    inside = os.path.join(folder, "dumps", "deeper")
    os.makedirs(inside)
    opening.put(inside, "flight-1-2-3.journal", journal)
    opening.put(inside, "flight-1-2-3.names", names)
    opening.put(inside, "notes.txt", b"{}")
    page_with(inside, "flight-1-2-3.html", "flight-1-2-3.journal", journal, names)
    dumps = os.path.dirname(inside)
    for take in (tab.drop, lambda path: choose(tab, path, name="#folder")):
        empty_page(tab)
        take(dumps)
        shows(tab, "dumps/deeper/flight-1-2-3.journal")
        assert tab.text("notice") == "", tab.text("notice")
    opening.put(inside, "second.ttd", SCRIPT)
    tab.drop(dumps)
    assert [name for name, _ in choices(tab)] == ["dumps/deeper/flight-1-2-3.journal", "dumps/deeper/second.ttd"]
    empty = os.path.join(folder, "empty")
    os.mkdir(empty)
    opening.put(empty, "x.txt", b"x")
    tab.drop(empty)
    told(tab, "notice", "empty can't be read: it is a folder without a journal, a script or a page.")


def zips(tab, folder, journals):
    """A zip of a page and of a dump opens as both do."""
    journal, names = real_runs.bus()
    pool, pool_names = real_runs.pool()
    page = read(page_with(folder, "bus.html", "bus.journal", journal, names))
    files = [("target/bus.html", page), ("dumps/flight-1-2-3.journal", pool), ("dumps/flight-1-2-3.names", pool_names),
             ("log.txt", b"x"), ("__MACOSX/dumps/._flight-1-2-3.journal", b"\0")]
    path = zip_of(folder, "ci.zip", files)
    for take in (tab.drop, lambda path: choose(tab, path)):
        empty_page(tab)
        take(path)
        assert [name for name, _ in choices(tab)] == ["target/bus.html", "dumps/flight-1-2-3.journal"]
        for number, name, channel in ((0, "target/bus.html", "event bus"), (1, "dumps/flight-1-2-3.journal", "jobs.")):
            tab.click(f"#choice [data-run='{number}']")
            shows(tab, name, channel)
            tab.click("#runs")
            tab.wait("!document.getElementById('choice').hidden")


def hostile_zips(tab, folder, journals):
    """A zip leads nowhere else, fills no memory, and what is damaged in it is said."""
    journal, names = real_runs.bus()
    empty_page(tab)
    tab.drop(zip_of(folder, "paths.zip", [("../../../etc/bus.journal", journal), ("/etc/bus.names", names), ("a/../../b.txt", b"x")]))
    shows(tab, "etc/bus.journal")
    half = b"<!doctype html>" + bytes(MOST // 2)
    bombs = [(zip_of(folder, "bomb.zip", [("big.journal", bytes(MOST + 1))]), "big.journal"),
             (zip_of(folder, "two.zip", [("a.html", half), ("b.html", half)]), "a.html can't be read: it is a page without a run. b.html"),
             (opening.put(folder, "bomb.journal.gz", gzip.compress(bytes(MOST + 1), 1)), "bomb.journal.gz")]
    for path, name in bombs:
        tab.drop(path)
        told(tab, "notice", f"{name} can't be read: it unpacks to more than 256 MB.")
    whole = read(zip_of(folder, "whole.zip", [("bus.journal", journal)]))
    many = zip_of(folder, "many.zip", [(f"{i}.journal", b"") for i in range(2001)])
    inner = zip_of(folder, "inner.zip", [("whole.zip", whole)])
    central = whole.rindex(b"PK\1\2")
    wild = whole[:central + 42] + b"\xf0\xff\xff\xff" + whole[central + 46:]
    locked = whole[:central + 8] + b"\1" + whole[central + 9:]
    for name, path, why in (
            ("many.zip", many, "it has more than 2,000 files"), ("inner.zip", inner, "it has no journal, script or page inside"),
            ("cut.zip", opening.put(folder, "cut.zip", whole[:-30]), "it is no whole zip file"),
            ("bus.journal", opening.put(folder, "wild.zip", wild), "it is no whole zip file"),
            ("bus.journal", opening.put(folder, "locked.zip", locked), "it is encrypted")):
        tab.drop(path)
        told(tab, "notice", f"{name} can't be read: {why}.")
    shows(tab, "etc/bus.journal")


def two_pages(tab, folder, journals):
    """Two pages of one test, one of which passed, are marked so, and compared with the failed one first."""
    test = {"package": "shop", "target": "test orders", "name": "orders", "thread": "orders"}
    calls = "0 0 send 0 1\n0 0 send 0 2\n"
    made = []
    for name, more, failed in (("a_passed", "0 0 recv 1\n", {}), ("b_failed", "0 0 send 0 3\n0 0 recv 1\n", {"failed": True})):
        journal = native.record(f"broadcast 2\n{calls}{more}".encode())
        names = {"version": 3, "actors": {"0": "main"}, "channels": {"0": "orders"}, "values": {}, "test": test, **failed}
        made.append(page_with(folder, f"{name}.html", "orders.journal", journal, json.dumps(names).encode()))
    for drop in (lambda: tab.drop(*made), lambda: choose(tab, *made)):
        empty_page(tab)
        drop()
        assert choices(tab) == [["a_passed.html", "passed"], ["b_failed.html", "failed"]], choices(tab)
        tab.click("#compare-both")
        tab.wait("!document.getElementById('against').hidden")
        told(tab, "facts", "b_failed.html · 4 calls")
        assert tab.text("other-line") == "the passing run: a_passed.html", tab.text("other-line")


# Notes which parts of the page were ever shown, and how far the bar came.
WATCHED = """(() => {
    window.everShown = new Set();
    window.farthest = 0;
    new MutationObserver(() => {
        for (const id of ["welcome", "busy", "walk"]) if (document.getElementById(id)?.hidden === false) everShown.add(id);
        farthest = Math.max(farthest, Number(document.getElementById("busy-bar")?.getAttribute("value") ?? 0));
    }).observe(document, { subtree: true, childList: true, attributes: true });
})()"""


def long_page(tab, folder, journals):
    """A page with a long run shows that it reads and unpacks it, and never the welcome, which a page without a run shows."""
    tab.call("Page.addScriptToEvaluateOnNewDocument", source=WATCHED)
    opening.load(tab, page_with(folder, "long.html", "long.journal", journals[100_000]))
    assert tab.text("facts").startswith("long.journal · 100,000 calls"), tab.text("facts")
    seen, farthest = tab.run("[[...everShown].sort().join(), farthest]")
    assert seen == "busy,walk" and farthest > 0, (seen, farthest)
    assert tab.run("document.getElementById('busy').hidden")
    empty_page(tab)
    tab.wait("!document.getElementById('welcome').hidden && document.getElementById('busy').hidden")


TESTS = [long_page, pages, hostile_pages, folders, zips, hostile_zips, two_pages]
