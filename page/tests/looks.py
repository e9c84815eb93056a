"""What designers look for: words that are whole and can be told apart, marks that nothing crosses, and numbers that are written in one way. Each of these
was a fault that somebody saw in a picture of the page."""
import json
import re

import first_look
import native
import opening
from rows import drawn

SIZES = first_look.SIZES

# A sender laps a receiver and is dropped. Their tasks have no names, and the test stands deep in folders.
TASKS = b"broadcast 2\nactors 3\n" + b"".join(b"1 0 send 0 %d\n" % number for number in range(3)) + b"2 0 try-recv 1\n1 0 drop 0\n2 0 try-recv 1\n2 0 drop 1\n"
DEEP = "tests/../../../explored/tests/programs/timers.rs"
TASKS_NAMES = {
    "actors": {"0": "test", "1": f"task of {DEEP}:158", "2": f"task of {DEEP}:169"}, "locations": [[DEEP, 173, 5]], "made": {"0": {"0": 0, "1": 0}},
    "calls": {"0": [0] * 7}, "values": {"0": {str(number): f"OrderPlaced {{ id: {number} }}" for number in range(3)}},
}


def page_of_tasks(folder):
    opening.put(folder, "tasks.names", json.dumps(TASKS_NAMES).encode())
    return opening.page_of(folder, "tasks.journal", native.record(TASKS))


def each_size(tab):
    for width, height in SIZES:
        tab.resize(width, height)
        yield width
    tab.resize(1440, 920)


# The underlined texts with a `_` whose line is higher than the lower edge of that letter.
UNDERSCORES = """(() => {
    const pen = document.createElement('canvas').getContext('2d');
    return [...document.querySelectorAll('button, a')].filter(it => it.checkVisibility() && it.textContent.includes('_')).flatMap(it => {
        const style = getComputedStyle(it);
        if (!style.textDecorationLine.includes('underline')) return [];
        pen.font = `${style.fontWeight} ${style.fontSize} ${style.fontFamily}`;
        const below = pen.measureText('_').actualBoundingBoxDescent;
        return [[it.textContent, parseFloat(style.textUnderlineOffset) >= below]];
    });
})()"""


def underscores_are_seen(tab, folder, journals):
    """No underline lies over the `_` of a name."""
    for width in each_size(tab):
        page, place = first_look.addresses()[first_look.HANGS]
        opening.load(tab, page, place)
        texts = tab.run(UNDERSCORES)
        assert len(texts) > 4 and all(is_seen for _, is_seen in texts), (width, texts)


# The places in the sources that are seen, with how far they go past the right edge of what they stand in, and of the window.
PAST = """[...document.querySelectorAll('.source')].filter(it => it.checkVisibility()).map(it => {
    let around = it.parentElement;
    while (getComputedStyle(around).display === 'inline') around = around.parentElement;
    return [it.textContent, Math.max(...[...it.getClientRects()].map(({ right }) => right)) - Math.min(innerWidth, around.getBoundingClientRect().right)];
})"""


def long_places_are_whole(tab, folder, journals):
    """A place in the sources that is longer than a line goes on in the next one."""
    path = page_of_tasks(folder)
    for width in each_size(tab):
        opening.load(tab, path, 3)
        for part in ["answer", "state"] if width < 900 else [None]:
            if part:
                tab.click(f"#tabs [data-tab={part}]")
            places = tab.run(PAST)
            assert places and max(past for _, past in places) < 1, (width, part, places)


def names_of_places_differ(tab, folder, journals):
    """What is named after a place keeps its line where its name is cut, so that two tasks and two channels are told apart."""
    path = page_of_tasks(folder)
    for width in each_size(tab):
        opening.load(tab, path, 3)
        tab.run("document.querySelector('#tabs [data-tab=picture]').click()")
        texts = [text for text, *_ in drawn(tab)] + [text for text, *_ in drawn(tab, "strip")]
        assert all(any(line in text for text in texts) for line in (":158 · ", ":169 · ", ":173")), (width, texts)


# Twenty receivers whose names differ at their ends alone.
SCREENS = b"broadcast 4\nactors 1\n" + b"0 0 subscribe 0\n" * 19 + b"0 0 send 0 1\n"
SCREEN_NAMES = {"handles": {"0": {str(handle): f"dashboard-{handle:02}" for handle in range(1, 21)}}}


def ends_of_names_are_kept(tab, folder, journals):
    """Names are cut last: where there is no room for a receiver's kind beside its name, that is left out."""
    opening.put(folder, "screens.names", json.dumps(SCREEN_NAMES).encode())
    path = opening.page_of(folder, "screens.journal", native.record(SCREENS))
    for width in each_size(tab):
        opening.load(tab, path, 20)
        tab.run("document.querySelector('#tabs [data-tab=picture]').click()")
        names = [text for text, *_ in drawn(tab) if text.startswith("dash")]
        assert len(names) > 4 and all(re.match(r"dashboard-\d\d ", name) for name in names), (width, names)


# What a drawing draws as texts, with their boxes, and as other things.
DRAWN = """(() => {
    const pens = CanvasRenderingContext2D.prototype, { fillText, fillRect, strokeRect, roundRect } = pens;
    const found = { texts: [], boxes: [], frames: [], rounds: [] };
    const of = pen => pen.canvas.id === 'picture' || pen.canvas.id === 'cursor';
    pens.fillText = function (text, x, y, ...rest) {
        const { actualBoundingBoxLeft: left, actualBoundingBoxRight: right } = this.measureText(text);
        if (of(this)) found.texts.push([text, x - left, x + right, y]);
        return fillText.call(this, text, x, y, ...rest);
    };
    pens.fillRect = function (...box) { if (of(this)) found.boxes.push(box); return fillRect.apply(this, box); };
    pens.strokeRect = function (...box) { if (of(this)) found.frames.push(box); return strokeRect.apply(this, box); };
    pens.roundRect = function (...box) { if (of(this)) found.rounds.push(box.slice(0, 4)); return roundRect.apply(this, box); };
    dispatchEvent(new Event('resize'));
    Object.assign(pens, { fillText, fillRect, strokeRect, roundRect });
    return found;
})()"""


def names_in_their_rows(tab, folder, journals):
    """On a phone the badge of the row at the place lies in the frame around its name, and no mark of a closed channel crosses the words of a head."""
    tab.resize(390, 844)
    page, place = first_look.addresses()["the_feed_stays_open"]
    opening.load(tab, page, place)
    found = tab.run(DRAWN)
    [[left, top, width, height]] = found["frames"]
    badges = [box for box in found["rounds"] if top <= box[1] + box[3] / 2 <= top + height]
    assert badges and all(top <= y and y + high <= top + height for _, y, _, high in badges), (found["frames"], badges)
    heads = [(text, start, end, y) for text, start, end, y in found["texts"] if text.startswith("closed · broadcast")]
    crossing = [box for box in found["boxes"] for _, start, end, y in heads if box[2] <= 2 and start < box[0] < end and box[1] <= y <= box[1] + box[3] < y + 13]
    assert heads and not crossing, (heads, crossing)
    tab.resize(1440, 920)


def legend_on_a_phone(tab, folder, journals):
    """A line below the rows explains their marks there, too, without a click."""
    tab.resize(390, 844)
    page, place = first_look.addresses()[first_look.FORTY]
    opening.load(tab, page, place)
    seen = tab.run(first_look.IN_SIGHT)
    assert tab.run("document.body.dataset.tab") == "answer" and "lost: overwritten before it was read" in seen, seen
    tab.resize(1440, 920)


def legend_without_losses(tab, folder, journals):
    """Where nothing was lost, the line says nothing of losses, and has room for what closed."""
    tab.resize(1024, 768)
    page, place = first_look.addresses()["the_feed_stays_open"]
    opening.load(tab, page, place)
    seen = tab.run(first_look.IN_SIGHT)
    assert "channel closed" in seen and "lost: overwritten" not in seen, seen
    tab.resize(1440, 920)


WINDOW = {"trigger": "lag", "at": 1_795_921_965_120, "reason": "`billing` lost 17 values of `ticks`", "lead": 0, "channels": {}}


def no_backquotes(tab, folder, journals):
    """What is above the page of a dump has no backquotes: why it was made has them around names."""
    opening.put(folder, "dump.names", json.dumps({"window": WINDOW}).encode())
    opening.load(tab, opening.page_of(folder, "dump.journal", native.record(TASKS)))
    assert "billing lost 17 values of ticks" in tab.text("facts") and "`" not in tab.run("document.body.innerText"), tab.text("facts")


def those_who_wait_are_actors(tab, folder, journals):
    """A run in which nobody made a call, and two wait, has two actors, each with a row."""
    waits = [{"actor": actor, "channel": actor, "handle": 1, "call": "recv", "since": 0, "location": None} for actor in (0, 1)]
    opening.put(folder, "peers.names", json.dumps({"hangs": True, "actors": {"0": "left peer", "1": "right peer"}, "waiting": waits}).encode())
    opening.load_first(tab, opening.page_of(folder, "peers.journal", native.record(b"broadcast 2\nbroadcast 2\nactors 2\n")))
    names = {text for text, *_ in drawn(tab)}
    assert " 2 actors " in tab.text("facts") and {"left peer", "right peer"} <= names, (tab.text("facts"), names)


def difference_on_a_phone(tab, folder, journals):
    """Two runs that are compared on a phone are shown with what differs, in whole, and the rows of the picture below."""
    tab.resize(390, 844)
    paths = []
    for name, journal in (("passed", TASKS), ("failed", TASKS.replace(b"2 0 try-recv 1\n1 0 drop 0", b"1 0 drop 0\n2 0 try-recv 1"))):
        opening.put(folder, f"{name}.names", json.dumps({"failed": name == "failed", "actors": TASKS_NAMES["actors"]}).encode())
        paths.append(opening.page_of(folder, f"{name}.journal", native.record(journal)))
    tab.load(native.PAGE)
    tab.wait("window.ttd")
    tab.drop(*paths)
    tab.wait("!document.getElementById('choice').hidden")
    tab.click("#compare-both")
    tab.wait("!document.getElementById('against').hidden")
    opening.settle(tab, 5)
    seen = first_look.spaced(tab.run(first_look.IN_SIGHT))
    assert all(words in seen for words in ("the first difference: call 5", "here call 4", "there call 4")), seen
    assert tab.run("document.getElementById('pane').getBoundingClientRect().height") >= 0.4 * 844
    tab.resize(1440, 920)


# Eight channels of a test that failed, of which one lost a value.
EIGHT = b"broadcast 2\n" * 8 + b"actors 2\n" + b"0 5 send 0 1\n" * 3 + b"1 5 try-recv 1\n"
PANIC = {"since": 4, "actor": 1, "location": 0, "text": "assertion `left == right` failed\n  left: Err(Lagged(1))\n right: Ok(1)"}
EIGHT_NAMES = {"failed": True, "panics": [PANIC], "actors": {"1": "the_test"}, "locations": [["tests/a.rs", 9, 5]], "calls": {"5": [0] * 4}}


def answer_above_many_channels(tab, folder, journals):
    """In a low window, too, the strip of many channels leaves room for the steps of the first fact."""
    opening.put(folder, "eight.names", json.dumps(EIGHT_NAMES).encode())
    path = opening.page_of(folder, "eight.journal", native.record(EIGHT))
    for width, height in ((1440, 900), (1366, 768), (1024, 768)):
        tab.resize(width, height)
        opening.load_first(tab, path)
        assert "the_test failed" in tab.text("failed"), tab.text("failed")
        seen = first_look.spaced(tab.run(first_look.IN_SIGHT))
        assert "call 3 channel 5: send(value 1)" in seen and "call 4 told: lagged 1" in seen, (width, seen)
    tab.resize(1440, 920)


# The rows of the state whose names are cut, how far what is beside each ends before its edge, and the distance of the buttons below each other.
CUT = "[...document.querySelectorAll('#state dt bdi')].filter(it => it.scrollWidth > it.clientWidth + 1).map(it => it.textContent)"
EDGES = """[...document.querySelectorAll('#state dl div')].map(it => {
    const [row, beside] = [it, it.children[1]].map(part => part.getBoundingClientRect().right);
    return row - beside;
})"""
APART = """(() => {
    const boxes = [...document.querySelectorAll('#share button')].map(it => it.getBoundingClientRect());
    return boxes.slice(1).map((it, i) => it.top > boxes[i].top ? it.top - boxes[i].bottom : it.left - boxes[i].right);
})()"""


def state_beside_names(tab, folder, journals):
    """In the state a name is whole while what is beside it can go on in the next line, which ends at the right edge, and the buttons below touch none."""
    for width, height in SIZES[:2]:
        tab.resize(width, height)
        page, place = first_look.addresses()["all_readers_see_every_config"]
        opening.load(tab, page, place)
        assert tab.run(CUT) == [], (width, tab.run(CUT))
        edges = tab.run(EDGES)
        assert edges and max(edges) < 1, (width, edges)
        assert min(tab.run(APART)) >= 4, (width, tab.run(APART))
    tab.resize(1440, 920)


# The calls in the list that are cut, although the file beside them has room to give.
CUT_CALLS = """[...document.querySelectorAll('#calls button')].map(row => [row.querySelector('span:not(.badge)'), row.querySelector('small')])
    .filter(([call, place]) => call.scrollWidth > call.clientWidth + 1 && place !== null && place.clientWidth > 60).map(([call]) => call.textContent)"""


def calls_before_files(tab, folder, journals):
    """In the list of calls the name of a file is cut before the call is, and keeps its line."""
    path = page_of_tasks(folder)
    opening.load(tab, path, 3)
    assert tab.run("document.querySelectorAll('#calls button').length") == 7 and tab.run(CUT_CALLS) == [], tab.run(CUT_CALLS)
    assert tab.run("[...document.querySelectorAll('#calls small')].every(it => it.clientWidth >= 40)")


# Those that open what the tests of `failing` have left.
OF_FAILING = [underscores_are_seen, names_in_their_rows, legend_on_a_phone, legend_without_losses, state_beside_names]
TESTS = [*OF_FAILING, long_places_are_whole, names_of_places_differ, ends_of_names_are_kept, no_backquotes, answer_above_many_channels,
         those_who_wait_are_actors, difference_on_a_phone, calls_before_files]
