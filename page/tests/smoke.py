"""What every browser has to do: it opens, walks and drops runs. Each has a driver of its own. All other tests run in Chromium's engine."""
import base64
import json
import re
import sys
import tempfile
import traceback

import dropped
import native
import opening
import real_runs
import runs

# Dispatches a drop of files, whose contents are given as texts.
DROP = """const data = new DataTransfer();
for (const [name, text] of arguments[0]) data.items.add(new File([text], name));
document.dispatchEvent(new DragEvent('drop', { dataTransfer: data, bubbles: true, cancelable: true }));"""

# The same of one file, whose bytes are given in base64.
DROP_BYTES = """const data = new DataTransfer();
data.items.add(new File([Uint8Array.from(atob(arguments[1]), it => it.charCodeAt(0))], arguments[0]));
document.dispatchEvent(new DragEvent('drop', { dataTransfer: data, bubbles: true, cancelable: true }));"""


def opens_and_walks(page, folder):
    """A run opens, keys walk through it, and the sentence has what the program writes."""
    journal = native.record(runs.example())
    ask = opening.asker(journal)
    # The loss that the slow auditor learned of last begins there.
    page.load(opening.page_of(folder, "walked.journal", journal))
    opening.settle(page, 36)
    page.key("\ue011")
    opening.settle(page, 0)
    place = 0
    for key, place in (("\ue014", 1), ("l", 19), ("l", 23), ("\ue010", 63), ("\ue011", 0)):
        page.key(key)
        opening.settle(page, place)
        step = ask(f"goto {place}\nstep\n").split("\n")[1]
        wanted = "the start" if place == 0 else step.split(" ", 4)[4].replace(" = ", " → ")
        assert wanted in page.text("sentence"), (page.text("sentence"), wanted)
    told = page.run("return document.getElementById('told-text').textContent")
    assert told == "", told
    page.run("document.getElementById('told').open = true")
    page.wait(f"document.getElementById('told-text').textContent === {json.dumps(ask('goto 0' + chr(10) + 'step' + chr(10) + 'state' + chr(10)))}")


def reads_the_answer(page, folder):
    """The first fact of the account counts what the replies told the slow auditor, and its first step leads to where that loss begins."""
    journal = native.record(runs.example())
    page.load(opening.page_of(folder, "answered.journal", journal))
    opening.settle(page, 36)
    told = re.findall(r" 0 recv 2 = lagged (\d+)", opening.asker(journal)("list\n"))
    answer = page.text("answer-box")
    assert f"receiver 2 lost {sum(map(int, told))} of " in answer, (told, answer)
    page.key("\ue011")
    opening.settle(page, 0)
    page.run("document.querySelector('#answer-box button').click()")
    opening.settle(page, 36)


def opens_large(page, folder):
    """A run of 100,000 calls opens, and L reaches the loss that no receive returned."""
    journal, names = real_runs.long()
    opening.put(folder, "long.names", names)
    page.load(opening.page_of(folder, "long.journal", journal))
    opening.settle(page, 50_010)
    page.key("\ue011")
    opening.settle(page, 0)
    for place in (50_010, 50_100):
        page.key("l")
        opening.settle(page, place)
    assert "was never told that it lost 45" in page.text("sentence"), page.text("sentence")


def drops(page, folder):
    """Files are dropped: a journal with its names, and a script."""
    journal, names = real_runs.bus()
    page.load(native.PAGE)
    page.wait("window.ttd")
    page.run(DROP, [["bus.names", names.decode()], ["bus.journal", journal.decode()]])
    opening.settle(page)
    assert "event bus" in page.text("state"), page.text("state")[:80]
    page.run(DROP, [["small.ttd", "broadcast 2\n0 0 send 0 9\n0 0 recv 1\n"]])
    page.wait("document.getElementById('facts').textContent.startsWith('small.ttd · 2 calls')")
    page.key("\ue010")
    opening.settle(page, 2)
    assert "recv 1 → value 9" in page.text("sentence"), page.text("sentence")


def opens_packed(page, folder):
    """A page with a packed run opens, and so does a zip with that page inside, and one that unpacks to too much is refused."""
    journal, names = real_runs.bus()
    packed = dropped.page_with(folder, "packed.html", "bus.journal", journal, names)
    page.load(packed)
    opening.settle(page)
    assert page.text("facts").startswith("bus.journal · 648 calls"), page.text("facts")
    zips = [dropped.zip_of(folder, "ci.zip", [("target/bus.html", dropped.read(packed))]),
            dropped.zip_of(folder, "bomb.zip", [("big.journal", bytes(dropped.MOST + 1))])]
    page.load(native.PAGE)
    page.wait("window.ttd")
    for path, shown in zip(zips, ("facts", "notice")):
        page.run(DROP_BYTES, path.rpartition("/")[2], base64.b64encode(dropped.read(path)).decode())
        wanted = {"facts": "target/bus.html · 648 calls", "notice": "big.journal can't be read: it unpacks to more than 256 MB."}[shown]
        page.wait(f"document.getElementById({json.dumps(shown)}).textContent.startsWith({json.dumps(wanted)})")


def count(name, browser):
    """Runs the tests, and ends the process. The last line counts them."""
    passed, tests = 0, [opens_and_walks, reads_the_answer, opens_large, drops, opens_packed]
    try:
        for test in tests:
            try:
                with tempfile.TemporaryDirectory() as folder:
                    test(browser, folder)
                passed += 1
                print(f"page in {name}, {test.__name__}: passed", flush=True)
            except Exception:
                print(f"page in {name}, {test.__name__}: failed\n{traceback.format_exc()}", flush=True)
    finally:
        browser.close()
    print(f"{passed} passed, {len(tests) - passed} failed")
    sys.exit(passed < len(tests))
