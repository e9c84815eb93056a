"""What comes in loses nothing: names before, with and after their run, packed and foreign texts, several runs, a reload, and signs meanwhile."""
import gzip
import json
import subprocess

import native
import opening
import real_runs
from chosen_files import CAUSE, SCRIPT, empty_page, told
from hands import script_asker
from opening import check_place

# Until `window.goOn` is called, requests to the debugger wait.
HELD = """(() => {
    const { postMessage } = Worker.prototype, held = [];
    Worker.prototype.postMessage = function (...words) { held.push(() => postMessage.apply(this, words)); };
    window.goOn = () => {
        Worker.prototype.postMessage = postMessage;
        held.forEach(send => send());
    };
})()"""

# Until `window.readOn` is called, a file isn't read.
HELD_FILE = """(() => {
    const { arrayBuffer } = Blob.prototype;
    Blob.prototype.arrayBuffer = function () {
        Blob.prototype.arrayBuffer = arrayBuffer;
        return new Promise(done => { window.readOn = () => done(arrayBuffer.call(this)); });
    };
})()"""

# Whether a sign can be seen: it is shown, and not transparent.
SEEN = "(name => !document.getElementById(name).hidden && getComputedStyle(document.getElementById(name)).opacity === '1')"
SCRIPT_SHOWN = "document.getElementById('facts').textContent.includes('4 calls')"


def files_of(folder, name, run):
    """A run's journal and its file of names."""
    journal, names = run
    return opening.put(folder, f"{name}.journal", journal), opening.put(folder, f"{name}.names", names)


def names_in_any_order(tab, folder, journals):
    """A file of names comes before its run, with it or after it, and several at once find theirs."""
    journal, names = files_of(folder, "bus", real_runs.bus())
    shown = "document.getElementById('state').textContent.includes('event bus')"
    for dropped in ([[names], [journal]], [[journal], [names]], [[journal, names]]):
        empty_page(tab)
        for files in dropped:
            tab.drop(*files)
            tab.wait("!document.getElementById('notice').hidden || document.getElementById('state').dataset.place !== undefined")
        tab.wait(shown)
        opening.settle_at_start(tab)
        tab.key("ArrowRight")
        opening.settle(tab, 1)
        assert tab.text("sentence").startswith("ma main on event bus: "), tab.text("sentence")
        assert tab.text("notice") == "", tab.text("notice")
        assert tab.run("document.title").startswith("bus.journal")
    empty_page(tab)
    tab.drop(names)
    told(tab, "notice", "bus.names waits for its journal or script")


def names_of_another_run(tab, folder, journals):
    """Names of another run are refused with a reason, and the names that the run has stay: by its channels, or by its values."""
    bus, bus_names = files_of(folder, "bus", real_runs.bus())
    _, pool_names = files_of(folder, "pool", real_runs.pool())
    empty_page(tab)
    tab.drop(bus, bus_names)
    opening.settle_at_start(tab)
    tab.drop(pool_names)
    told(tab, "notice", "pool.names isn't of this run: it names channel 19, and this run has 2 channels, from 0 on.")
    assert tab.text("state").startswith("event bus"), tab.text("state")[:100]
    other = json.dumps({"channels": {"0": "other"}, "values": {"0": {"70000": "x", "70001": "y"}}}).encode()
    tab.drop(opening.put(folder, "other.names", other))
    told(tab, "notice", "other.names isn't of this run: none of the 2 values that it names on channel 0 is sent there in this run.")
    assert tab.text("state").startswith("event bus"), tab.text("state")[:100]
    tab.drop(bus, pool_names)
    told(tab, "notice", "pool.names isn't of this run: ")
    opening.settle_at_start(tab)
    assert tab.text("state").startswith("channel 0"), tab.text("state")[:100]


def foreign_texts(tab, folder, journals):
    """A byte order mark, UTF-16, CR LF and gzip are read, and the facts say so. A file that is packed otherwise is named."""
    crlf = SCRIPT.replace(b"\n", b"\r\n")
    cases = [(b"\xef\xbb\xbf" + SCRIPT, "byte order mark"), (crlf, "CR LF"), (gzip.compress(SCRIPT), "gzip"),
             (gzip.compress(b"\xef\xbb\xbf" + crlf), "gzip, byte order mark, CR LF"),
             (b"\xff\xfe" + crlf.decode().encode("utf-16le"), "UTF-16, CR LF"), (b"\xfe\xff" + SCRIPT.decode().encode("utf-16be"), "UTF-16")]
    for number, (data, note) in enumerate(cases):
        empty_page(tab)
        tab.drop(opening.put(folder, f"foreign{number}.ttd", data))
        told(tab, "facts", f"foreign{number}.ttd · 4 calls · 1 channel · 1 actor · read from {note}")
        check_place(tab, script_asker(SCRIPT), CAUSE)
    journal, names = real_runs.bus()
    tab.drop(opening.put(folder, "bus.journal.gz", gzip.compress(journal)), opening.put(folder, "bus.names.gz", gzip.compress(names)))
    told(tab, "facts", "bus.journal.gz · 648 calls")
    tab.wait("document.getElementById('state').textContent.includes('event bus')")
    for data, wanted in ((b"PK\3\4 and more", "it is no whole zip file"), (b"BZh9", "it is packed by bzip2, and only gzip and zip are unpacked here"), (gzip.compress(journal)[:900], "it is no whole gzip file")):
        tab.drop(opening.put(folder, "packed", data))
        told(tab, "notice", f"packed can't be read: {wanted}")
        assert not tab.run("document.getElementById('walk').hidden"), "the run before is gone"
    opening.load(tab, opening.page_of(folder, "inside.ttd.gz", gzip.compress(SCRIPT)))
    check_place(tab, script_asker(SCRIPT), 0)


def several_runs(tab, folder, journals):
    """Several runs give a list, from which each is opened with its own names, and which can be shown again. What can't be read is named."""
    files = files_of(folder, "bus", real_runs.bus()) + files_of(folder, "pool", real_runs.pool())
    empty_page(tab)
    tab.drop(*files, opening.put(folder, "third.ttd", SCRIPT), opening.put(folder, "lone.names", b"{}"), opening.put(folder, "p.zip", b"PK\3\4"))
    tab.wait("!document.getElementById('choice').hidden")
    assert tab.run("[...document.querySelectorAll('#choice button:not([hidden])')].map(it => it.textContent)") == ["bus.journal", "pool.journal", "third.ttd"]
    told(tab, "notice", "p.zip can't be read: it is no whole zip file. lone.names isn't beside a run of that name.")
    for number, name, channel in ((1, "pool.journal", "jobs."), (0, "bus.journal", "event bus"), (2, "third.ttd", "channel 0")):
        tab.click(f"#choice [data-run='{number}']")
        told(tab, "facts", f"{name} · ")
        opening.settle_at_start(tab)
        assert tab.text("state").startswith(channel), tab.text("state")[:100]
        tab.click("#runs")
        tab.wait("!document.getElementById('choice').hidden")
    tab.click("#runs")
    opening.settle(tab, 0)


def reload(tab):
    tab.call("Page.reload")
    tab.browser.event("Page.loadEventFired", tab.session)


def kept_for_a_reload(tab, folder, journals):
    """A dropped run is there again after a reload, with its names, at its place. A step back leads to the run before."""
    opening.load(tab, opening.page_of(folder, "own.ttd", SCRIPT), 2)
    tab.drop(*files_of(folder, "bus", real_runs.bus()))
    told(tab, "facts", "bus.journal · 648 calls")
    opening.settle(tab)
    tab.key("ArrowRight")
    place = tab.run("document.getElementById('slider').valueAsNumber")
    tab.wait(f"location.hash.includes('call={place}&')")
    said = tab.text("sentence")
    tab.run("""new Promise(done => {
        const look = () => indexedDB.open('yovanelum').onsuccess = ({ target: { result } }) => {
            const count = result.transaction('runs').objectStore('runs').count();
            count.onsuccess = () => { result.close(); count.result ? done() : setTimeout(look, 5); };
        };
        look();
    })""")
    reload(tab)
    opening.settle(tab, place)
    assert tab.text("sentence") == said and " on event bus: " in said, tab.text("sentence")
    assert tab.text("facts").startswith("bus.journal · "), tab.text("facts")
    tab.run("history.back()")
    told(tab, "facts", "own.ttd · 4 calls")
    check_place(tab, script_asker(SCRIPT), 2)
    tab.run("history.forward()")
    told(tab, "facts", "bus.journal · ")
    opening.settle(tab, place)
    reload(tab)
    opening.settle(tab, place)


def salvaged(path):
    """What the program leaves of a truncated journal, and how many of its bytes that is."""
    done = subprocess.run([native.PROGRAM, "salvage", path], capture_output=True, check=True)
    return done.stdout, int(done.stderr.split(b" ")[1])


def cut_journals(tab, folder, journals):
    """A truncated journal is opened with the calls of its whole lines, and a line says so. One without its head is refused."""
    journal = journals[63]
    ends = [len(journal) - 2, len(journal) - 4, journal.index(b"= lagged 2") + 9, journal.index(b"\n9 ") + 1, journal.index(b"steps\n") + 6]
    for number, end in enumerate(ends):
        path = opening.put(folder, f"cut_{number}.journal", journal[:end])
        left, kept = salvaged(path)
        calls = left.count(b" = ")
        empty_page(tab)
        tab.drop(path)
        opening.settle(tab)
        count = "1 call" if calls == 1 else f"{calls} calls"
        told = f"This journal is truncated. Its whole lines are shown: {kept:,} of {end:,} bytes, with {count}. What came after them isn't known."
        assert tab.text("cut") == told, (tab.text("cut"), told)
        tab.key("End")
        check_place(tab, opening.asker(left), calls)
    tab.drop(opening.put(folder, "whole.journal", journal))
    tab.wait("document.getElementById('facts').textContent.startsWith('whole.journal · 63')")
    assert tab.run("document.getElementById('cut').hidden")
    tab.drop(opening.put(folder, "headless.journal", journal[:20]))
    tab.wait("!document.getElementById('refusal').hidden")


def signs(tab, folder, journals):
    """There is a sign while a file is read, while a search runs, and while a file is dragged over the window, and it goes away."""
    empty_page(tab)
    tab.run(HELD_FILE)
    tab.run(HELD)
    tab.drop(opening.put(folder, "large.journal", real_runs.long()[0]))
    for sign, then in (("reading large.journal", "readOn"), ("opening large.journal, 3 MB", "goOn")):
        tab.wait(f"document.getElementById('busy-text').textContent === '{sign}' && {SEEN}('busy')")
        tab.run(f"void {then}()")
    opening.settle_at_start(tab)
    assert tab.run("document.getElementById('busy').hidden")
    tab.run(HELD)
    tab.click("#stops [value=rforward]")
    tab.wait(f"{SEEN}('busy')")
    assert tab.text("busy-text") == "searching on for reply lagged", tab.text("busy-text")
    tab.run("void goOn()")
    tab.wait("document.getElementById('found').textContent.startsWith('no hit')")
    assert tab.run("document.getElementById('busy').hidden")
    data = {"items": [], "files": [opening.put(folder, "dragged.ttd", SCRIPT)], "dragOperationsMask": 1}
    shown = "!document.getElementById('drop-sign').hidden"
    for kind, wanted in (("dragEnter", shown), ("dragOver", shown), ("drop", f"!({shown})"), ("dragEnter", shown)):
        tab.call("Input.dispatchDragEvent", type=kind, x=400, y=300, data=data)
        tab.wait(wanted)
    assert tab.run("document.getElementById('drop-sign').getBoundingClientRect().width === innerWidth")
    tab.run("void document.dispatchEvent(new DragEvent('dragleave', { relatedTarget: null }))")
    tab.wait(f"!({shown})")
    tab.wait(SCRIPT_SHOWN)
