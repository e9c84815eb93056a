"""Keys, mouse, stops and files in the real browser, each compared with what the program writes."""
import json
import math
import os
import re
import subprocess

import native
import opening
from opening import check_place
from shown import points_of

GUTTER, MARGIN = 268, 14
STOPS = [("rforward", "lagging 0 2"), ("rforward", "lagging 0 2"), ("rback", "actor 2"), ("rforward", "closed 1"),
         ("rback", "unseen 1 2"), ("rforward", "queue 0 4"), ("rforward", "reply nonsense"),
         ("rback", "closed 0"), ("rforward", "lagging 99999999999999999999 1")]

# For the page, the next request to the debugger fails for lack of memory.
FAILING = """(() => {
    const { postMessage } = Worker.prototype;
    Worker.prototype.postMessage = () => {
        Worker.prototype.postMessage = postMessage;
        throw new Error('no memory');
    };
})()"""

# A click as soon as a run is shown. At the end of a large run most states are requested only after that.
EARLY_CLICK = """new MutationObserver((_, observer) => {
    if (document.getElementById('walk')?.hidden !== false) return;
    observer.disconnect();
    window.clickedAt = document.getElementById('state').textContent;
    Element.prototype.setPointerCapture = () => {};
    document.getElementById('picture-box').dispatchEvent(new PointerEvent('pointerdown', { clientX: 600, clientY: 500 }));
}).observe(document, { subtree: true, attributes: true, attributeFilter: ['hidden'] })"""


def column_x(tab, box, column, columns):
    """Where a column is in a drawing with this many columns."""
    left, top, width, height = tab.box(box)
    return left + GUTTER + (column + 0.5) * (width - GUTTER - MARGIN) / columns, top


def keys(tab, folder, journals):
    """Each key goes where the console goes."""
    opening.load(tab, opening.page_of(folder, "keys.journal", journals[63]))
    ask = opening.asker(journals[63])
    check_place(tab, ask, 0)
    for pressed, shift, place in (("ArrowRight", False, 1), ("ArrowRight", True, 11), ("ArrowLeft", False, 10), ("End", False, 63),
                                  ("ArrowRight", False, 63), ("ArrowLeft", True, 53), ("Home", False, 0), ("ArrowLeft", False, 0)):
        tab.key(pressed, shift)
        check_place(tab, ask, place)


# By the example's states: receiver 2 lags from 19 up to 23, from 31 up to 33, and from 36 up to 53.
LOSS_STOPS = [19, 23, 31, 33, 36, 53]


def loss_keys(tab, folder, journals):
    """L and Shift L go to the places where a loss begins and where it ends, and report if there is none."""
    opening.load(tab, opening.page_of(folder, "lags.journal", journals[63]))
    ask = opening.asker(journals[63])
    for place in LOSS_STOPS:
        tab.key("l")
        check_place(tab, ask, place)
        assert tab.text("found") == ("a loss begins" if place in LOSS_STOPS[::2] else "a loss ends"), tab.text("found")
    tab.key("l")
    tab.wait("document.getElementById('found').textContent === 'no loss begins or ends after it'")
    for place in reversed(LOSS_STOPS[:-1]):
        tab.key("L", shift=True)
        check_place(tab, ask, place)
    tab.key("L", shift=True)
    tab.wait("document.getElementById('found').textContent === 'no loss begins or ends before it'")


def found_around(ask, place, word, condition):
    """What the console answers from a place on, or else of the whole run from the other end, and how the page says that it went on there."""
    def answer(start, word):
        return ask(f"goto {start}\n{word} {condition}\n").rstrip("\n").split("\n")[-1]
    first = answer(place, word)
    if first.startswith("hit"):
        return first, ""
    hits = []
    while (found := answer(hits[-1] if hits else 0, "rforward")).startswith("hit"):
        hits.append(int(found.split(" ")[1]))
    if not hits:
        return first, ""
    return (f"hit {hits[-1]}", ", from the end again") if word == "rback" else (f"hit {hits[0]}", ", from the start again")


def stops(tab, folder, journals):
    """Stops are the console's own conditions: the page goes where the console's answer says, and on from the other end where that is no hit. Of a fault, or
    where there is none at all, it says what the console says."""
    opening.load(tab, opening.page_of(folder, "stops.journal", journals[63]))
    ask, place = opening.asker(journals[63]), 0
    for word, condition in STOPS:
        tab.run("document.getElementById('condition').select()")
        tab.type(condition)
        tab.key("Enter", shift=word == "rback")
        answer, around = found_around(ask, place, word, condition)
        place = int(answer.split(" ")[1]) if answer.startswith("hit") else place
        wanted = f"hit at call {place}{around}" if answer.startswith("hit") else answer
        tab.wait(f"document.getElementById('found').textContent === {json.dumps(wanted)}")
        check_place(tab, ask, place)


PRESS = "document.dispatchEvent(new KeyboardEvent('keydown', {{ key: '{}' }}))"
SEARCH = "document.querySelector('#stops [value=rforward]').click()"


def hurried(tab, *pressed):
    """Searches and presses keys, each before the page has finished with the last one, and waits until it has finished with all."""
    tab.run(f"void ({', '.join(SEARCH if key == 'search' else PRESS.format(key) for key in pressed)})")
    tab.be_answered()


def hurried_searches(tab, folder, journals):
    """A search begins where the one before has ended. A move by hand discards it, with what it has reported."""
    opening.load(tab, opening.page_of(folder, "hurried.journal", journals[63]))
    ask = opening.asker(journals[63])
    second = ask("start\nrforward reply lagged\nrforward reply lagged\n").rstrip("\n").split("\n")[-1]
    hurried(tab, "search", "search")
    check_place(tab, ask, int(second.split(" ")[1]))
    assert tab.text("found") == f"hit at call {second.split(' ')[1]}"
    tab.key("ArrowRight")
    assert tab.text("found") == ""
    hurried(tab, "search", "search", "Home")
    check_place(tab, ask, 0)
    assert tab.text("found") == ""


def failed_search(tab, folder, journals):
    """If the debugger fails in a search, the page reports it, and the next search works."""
    opening.load(tab, opening.page_of(folder, "failed.journal", journals[63]))
    tab.run(FAILING)
    tab.click("#stops [value=rforward]")
    tab.wait("!document.getElementById('notice').hidden")
    assert tab.text("notice") == "The debugger failed: no memory."
    check_place(tab, opening.asker(journals[63]), 0)
    tab.click("#stops [value=rforward]")
    check_place(tab, opening.asker(journals[63]), 23)


def early_click(tab, folder, journals):
    """A click on the picture before there is one stays at the place."""
    tab.call("Page.addScriptToEvaluateOnNewDocument", source=EARLY_CLICK)
    opening.load(tab, opening.page_of(folder, "early.journal", journals[10_000]), 10_000)
    assert tab.run("window.clickedAt") == "", "the picture was there already"
    check_place(tab, opening.asker(journals[10_000]), 10_000)


def buttons(tab, folder, journals):
    """Buttons, chips, the list of calls and the slider."""
    opening.load(tab, opening.page_of(folder, "buttons.journal", journals[63]))
    ask = opening.asker(journals[63])
    for name, place in (("#forward", 1), ("#forward", 2), ("#back", 1), ("#last", 63), ("#first", 0), ("#loss-after", 19),
                        ("#loss-after", 23), ("#loss-before", 19), ("#chips [data-condition='closed 0']", 52), ("#calls [data-place='50']", 50)):
        if name.startswith("#chips"):
            tab.click("#condition")
        tab.click(name)
        check_place(tab, ask, place)
    tab.run("(() => { const slider = document.getElementById('slider'); slider.value = 12; slider.dispatchEvent(new Event('input')); })()")
    check_place(tab, ask, 12)
    for name, width in (("#nearer", 32), ("#nearer", 16), ("#farther", 32), ("#whole", 63)):
        tab.click(name)
        seen = places_in_view(tab)
        assert seen[1] - seen[0] == width and seen[0] <= 12 <= seen[1], (name, seen)
        check_place(tab, ask, 12)


def places_in_view(tab):
    """The first and the last place of the picture, by its label."""
    label = tab.run("document.getElementById('picture').getAttribute('aria-label')")
    start, first, last = re.fullmatch(r"(The start and c|C)alls (\d+) to (\d+), drawn\.", label).groups()
    return [0 if start != "C" else int(first), int(last)]


def mouse(tab, folder, journals):
    """Clicks and drags on the picture and the strip, and the wheel."""
    opening.load(tab, opening.page_of(folder, "mouse.journal", journals[63]))
    ask = opening.asker(journals[63])
    for column in (7, 60, 31):
        x, top = column_x(tab, "#picture-box", column, 64)
        tab.click_at(x, top + 60)
        check_place(tab, ask, column)
    x, top = column_x(tab, "#picture-box", 10, 64)
    tab.drag(x, top + 60, column_x(tab, "#picture-box", 44, 64)[0], top + 60)
    check_place(tab, ask, 44)
    tab.key("+")
    tab.wait("document.getElementById('picture').getAttribute('aria-label').includes('alls ')")
    x, top = column_x(tab, "#strip-box", 20, 64)
    tab.click_at(x, top + 20)
    check_place(tab, ask, 20)
    before = tab.run("document.getElementById('picture').getAttribute('aria-label')")
    tab.mouse("mouseWheel", x, top + 20, deltaX=0, deltaY=200)
    tab.wait(f"document.getElementById('picture').getAttribute('aria-label') !== {json.dumps(before)}")
    check_place(tab, ask, 20)
    tab.drag(x, top + 20, column_x(tab, "#strip-box", 51, 64)[0], top + 20)
    check_place(tab, ask, 51)
    first, last = places_in_view(tab)
    assert last - first == 32 and first <= 51 <= last, (first, last)


def drops(tab, folder, journals):
    """A journal is dropped on the page, then a script, then a spoiled journal."""
    tab.load(native.PAGE)
    tab.wait("window.ttd")
    journal = opening.put(folder, "dropped.journal", journals[63])
    tab.drop(journal)
    opening.settle(tab)
    tab.key("End")
    check_place(tab, opening.asker(journals[63]), 63)
    script = b"broadcast 2\n0 0 send 0 9\n0 0 send 0 10\n0 0 send 0 11\n0 0 recv 1\n---\nback\n"
    tab.drop(opening.put(folder, "dropped.ttd", script))
    tab.wait("document.getElementById('facts').textContent.startsWith('dropped.ttd · 4 calls')")
    ask = script_asker(script)
    tab.key("End")
    check_place(tab, ask, 4)
    tab.drop(opening.put(folder, "spoiled.journal", journals[63].replace(b"= lagged 2", b"= lagged 3")))
    tab.wait("!document.getElementById('refusal').hidden")


def script_asker(script):
    """What the program writes for commands after a script, without the line that it would wait."""
    def ask(commands):
        answer = native.session(script.partition(b"---\n")[0] + b"---\n" + commands.encode()).decode()
        return answer.partition("\n")[2] if answer.startswith("would wait") else answer
    return ask


def waiting_script(tab, folder, journals):
    """A script whose last call would wait: the page reports it, and walks the calls before it."""
    script = b"broadcast 2\nactors 2\n1 0 subscribe 0 as slow\n0 0 send 0 5\n1 0 recv slow\n1 0 recv slow\n0 0 send 0 6\n"
    opening.load(tab, opening.page_of(folder, "waits.ttd", script))
    assert native.session(script).startswith(b"would wait 6"), "the program says another line"
    assert tab.text("facts") == "waits.ttd · 3 calls · 1 channel · 2 actors · line 6 would wait: 1 0 recv slow", tab.text("facts")
    ask = script_asker(script)
    for place in (0, 1, 2, 3):
        check_place(tab, ask, place)
        tab.key("ArrowRight")
    check_place(tab, ask, 3)
    assert points_behind(tab, 4, 5) > 200
    opening.load(tab, opening.page_of(folder, "waits_not.ttd", script.replace(b"1 0 recv slow\n0 0", b"0 0")))
    assert points_behind(tab, 4, 5) == 0


def points_behind(tab, column, columns):
    """How many pixels of the picture have actor 1's colour, from this one of its columns on."""
    x, _ = column_x(tab, "#picture-box", column - 0.5, columns)
    return points_of(tab, "--actor-1", math.ceil(x - tab.box("#picture-box")[0]))


def refused(tab, folder, text, wanted):
    """A refused text is shown with its fault, and the line that is at fault is marked among those around it."""
    tab.load(opening.page_of(folder, "refused", text))
    tab.wait("!document.getElementById('refusal').hidden")
    fault, line = wanted
    assert tab.run("document.querySelector('#refusal .fault').textContent") == fault
    marked = tab.run("[...document.querySelectorAll('#refusal [aria-current]')].map(it => it.value + ' ' + it.textContent)")
    content = text.split(b"\n")[line - 1].decode(errors="replace")[:256]
    assert marked == [f"{line} {content}"], marked


def refusals(tab, folder, journals):
    """Refused journals and scripts, by the program's own fault lines."""
    journal = journals[63]
    lag = journal[:journal.index(b"= lagged 2")].count(b"\n") + 1
    for text in (journal.replace(b"= lagged 2", b"= lagged 3"), journal.replace(b"\n9 ", b"\n09 "), journal.replace(b"\n9 ", b"\n8 ", 1),
                 journal.replace(b"broadcast 4", b"broadcast 65537")):
        fault = native.debug(text, b"").decode().rstrip("\n")
        refused(tab, folder, text, (fault, int(fault.split(" ")[3])))
    assert native.debug(journal.replace(b"= lagged 2", b"= lagged 3"), b"").decode() == f"journal fault wrong-reply {lag}\n"
    refused(tab, folder, journal[:20], ("journal fault truncated", journal[:20].count(b"\n") + 1))
    for text in (b"broadcast 0\n", b"broadcast 4\n0 0 sing 0\n", b"broadcast 4\n0 0 send 1 <b>\n", b"x" * 300 + b"\n", b"\n"):
        fault = native.session(text).decode().rstrip("\n")
        line = int(fault.split(" ")[2])
        if line <= text.count(b"\n"):
            refused(tab, folder, text, (fault, line))


def example(tab, folder, journals):
    """The page's own example, which has names."""
    tab.load(native.PAGE)
    tab.wait("window.ttd")
    tab.click("#example-button")
    opening.settle_at_start(tab)
    tab.key("l")
    tab.key("l")
    opening.settle(tab, 23)
    assert tab.text("sentence") == "sa slow auditor on prices: recv 2 → lagged 2: lost 102, 103", tab.text("sentence")


def files_that_are_not_there(tab, folder, journals):
    """page/open reports what is missing, with status 2."""
    for words, told in (([os.path.join(folder, "nothing")], f"page/open: {folder}/nothing is no file that can be read\n"),
                        ([], "page/open: give one journal or script\n")):
        done = subprocess.run([opening.OPEN, *words], capture_output=True)
        assert (done.returncode, done.stdout, done.stderr.decode()) == (2, b"", told)


def addresses(tab, folder, journals):
    """The page goes to the call in the address, and walking updates it. An address of an earlier page has `place` in its place."""
    path, ask = opening.page_of(folder, "address.journal", journals[63]), opening.asker(journals[63])
    opening.load(tab, path, 42)
    check_place(tab, ask, 42)
    tab.key("ArrowRight")
    tab.wait("location.hash.startsWith('#call=43&')")
    for address, place in (("#call=9", 9), ("#place=7", 7)):
        tab.run(f"void (location.hash = '{address}')")
        check_place(tab, ask, place)
