"""What someone sees first of the pages of eleven failing tests, before a click: what went wrong, where and for whom, as first_look.csv has it, which was
written before the page answered it."""
import csv
import functools
import json
import os
import re
import subprocess

import failing
import native
import opening
from hands import places_in_view
from rows import DRAWN, drawn

FILE = "tests/first_look.rs"
HANGS = "the_worker_gets_its_go"
FORTY = "every_client_hears_each_price"
# A test of `failing` whose tasks are drawn below the rows.
WITH_LANES = "both_clerks_get_the_first_order"
SIZES = [(1440, 900), (1024, 768), (390, 844)]
LOOK = re.compile(r"^look: file://(\S+)#call=(\d+)$", re.M)

with open(os.path.join(native.TOP, "page", "tests", "first_look.csv"), encoding="utf-8", newline="") as file:
    TABLE = {row["test"]: row for row in csv.DictReader(file)}


@functools.cache
def addresses():
    """The page of each of the tests, and the place in its address. They are run once."""
    failing.make_package()
    command = ["cargo", "test", "--offline", "--test", "first_look", "--"]
    done = subprocess.run([*command, "--skip", HANGS], cwd=failing.PACKAGE, env=failing.environment(), stdout=subprocess.PIPE, stderr=subprocess.STDOUT,
                          text=True, timeout=failing.PATIENCE)
    found = LOOK.findall(done.stdout + failing.said_by_hanging((*command, HANGS)))
    pages = {os.path.splitext(os.path.basename(path))[0]: (path, int(place)) for path, place in found}
    assert pages.keys() == TABLE.keys(), done.stdout
    return pages


# The words that are in the window and under nothing, each line of an element after the other: in a text only the part that isn't cut off counts.
IN_SIGHT = """(() => {
    const words = [], range = document.createRange(), texts = document.createTreeWalker(document.body, NodeFilter.SHOW_TEXT);
    const isSeen = ({ left, top, width, height }) => {
        const [x, y] = [left + width / 2, top + height / 2];
        if (width === 0 || height === 0 || x < 0 || y < 0 || x > innerWidth || y > innerHeight) return false;
        const there = document.elementFromPoint(x, y), { parentElement } = texts.currentNode;
        return there !== null && (there === parentElement || parentElement.contains(there) || there.contains(parentElement));
    };
    while (texts.nextNode()) {
        const node = texts.currentNode;
        if (!node.parentElement.checkVisibility() || node.parentElement.closest('script, style')) continue;
        for (const { 0: word, index } of node.data.matchAll(/\\S+/g)) {
            range.setStart(node, index);
            range.setEnd(node, index + word.length);
            if ([...range.getClientRects()].every(isSeen)) words.push(word);
            else words.push('…');
        }
    }
    return words.join(' ');
})()"""


def spaced(text):
    """A text without what elements put between its words and their commas."""
    return re.sub(r" ?([,:)\]]) ?", r"\1 ", text)


def answered_without_a_click(tab, folder, journals):
    """What went wrong, where, and who: each is in sight when the page opens, at three sizes."""
    lacking = []
    for name, (page, place) in addresses().items():
        row = TABLE[name]
        wanted = [*row["what"].split("; "), failing.line_of(row["where"], (FILE, "src/lib.rs")), *row["who"].split("; ")]
        for width, height in SIZES:
            tab.resize(width, height)
            opening.load(tab, page, place)
            seen = spaced(tab.run(IN_SIGHT))
            lacking += [(name, width, word, seen) for word in wanted if spaced(word).strip() not in seen]
    tab.resize(1440, 920)
    assert not lacking, lacking


# How high the rows with the lanes of tasks and the window are, how many facts are unfolded, and how high the page is.
PARTS = """[document.getElementById('pane').clientHeight + document.getElementById('lanes').clientHeight, innerHeight, document.querySelectorAll('#answer .fact[open]').length,
    document.documentElement.scrollHeight]"""


def picture_has_half(tab, folder, journals):
    """The rows of the picture are in sight and have half of the window, where controls need two rows two fifths, with at most three facts unfolded, and
    the failure above all."""
    for width, height, share in ((1366, 768, 0.5), (1440, 900, 0.5), (1920, 1080, 0.5), (1024, 768, 0.4)):
        tab.resize(width, height)
        for name, (page, place) in {**addresses(), WITH_LANES: failing.addresses()[WITH_LANES]}.items():
            opening.load(tab, page, place)
            rows, window, unfolded, scrolled = tab.run(PARTS)
            assert rows + 1 >= share * window and 1 <= unfolded <= 3 and scrolled == window, (name, width, rows, window, unfolded, scrolled)
            tops = tab.run("['failed', 'answer', 'strip-box'].map(name => document.getElementById(name).getBoundingClientRect().top)")
            assert tops == sorted(tops) and tops[0] > 0, (name, tops)
    tab.resize(1440, 920)


def headings(tab):
    """What a screen reader lists."""
    nodes = tab.call("Accessibility.getFullAXTree")["nodes"]
    return [it["name"]["value"] for it in nodes if not it["ignored"] and it["role"]["value"] == "heading"]


def failure_is_the_head(tab, folder, journals):
    """The first heading of the run is the failure, with left and right below each other, or which calls wait where the test hangs, and then comes each fact in
    the order of the account."""
    for name, (page, place) in addresses().items():
        with open(failing.beside(page, ".names"), encoding="utf-8") as file:
            account = json.load(file)["account"]
        opening.load(tab, page, place)
        told = [failing.shown(fact["text"][0]) for fact in account["facts"]]
        heads = [it for it in headings(tab) if it in told or it.startswith((f"{name} failed at ", f"{name} hangs"))]
        heads = [re.split(" failed at | hangs$", it)[0] if it.startswith(name) else it for it in heads]
        open_rest = tab.run("document.querySelector('#answer .rest')?.open ?? true")
        assert heads == [name] + (told if open_rest else told[:account["rest"]["after"]]), (name, heads)
        if name == HANGS:
            assert tab.run(failing.HEAD) == failing.hang_of(name, account), tab.run(failing.HEAD)
            tab.run("document.querySelector('#failed .wait button').click()")
            opening.settle(tab, account["waiting"][0]["since"])
        else:
            assert tab.run(failing.HEAD) == failing.head_of(account["failed"]), tab.run(failing.HEAD)
            sides = tab.run("[...document.querySelectorAll('#failed dd')].map(it => { const { left, top } = it.getBoundingClientRect(); return [left, top]; })")
            assert len(sides) == 2 * account["failed"]["message"].startswith("assertion") and (not sides or sides[0][0] == sides[1][0] and sides[0][1] < sides[1][1]), sides


def hang_is_the_head(tab, folder, journals):
    """The head of a test that hangs has three calls that wait at most, and how many more, or says that none waits. It is in the Markdown and in the picture."""
    journal = native.record(b"broadcast 2\nactors 5\n0 0 send 0 1\n")
    waits = [{"actor": actor, "channel": 0, "handle": 1, "call": "recv", "since": 1, "location": None} for actor in range(1, 5)]
    test = {"package": "shop", "target": "bus", "name": "it_ends", "thread": "it_ends"}
    for number, (waiting, head) in enumerate((([], "no call on its channels waits"), (waits[:3], None), (waits, "and 1 more call"))):
        opening.put(folder, f"{number}.names", json.dumps({"hangs": True, "test": test, "channels": {"0": "jobs"}, "waiting": waiting}).encode())
        opening.load_first(tab, opening.page_of(folder, f"{number}.journal", journal))
        said = tab.run(failing.HEAD)
        lines = [f"still waiting: actor {actor} in jobs.recv since call 1" for actor in range(1, 1 + min(3, len(waiting)))]
        assert said == " ".join(["it_ends hangs", *lines, *([head] if head else [])]), said
        tab.run("void (navigator.clipboard.writeText = async text => { window.copied = text; })")
        tab.run("void (URL.createObjectURL = blob => { blob.text().then(text => { window.saved = text; }); return '#'; })")
        tab.run("['report', 'save-svg'].forEach(name => document.getElementById(name).click())")
        tab.wait("window.copied && window.saved")
        assert "```text\nit_ends hangs\n```" in tab.run("copied") and ">it_ends hangs<" in tab.run("saved"), tab.run("[copied, saved]")


def told_rows_come_first(tab, folder, journals):
    """The rows of those who take part in what is told stand above all others, marked, and the place is in the middle."""
    page, place = addresses()[FORTY]
    for width, height in SIZES:
        tab.resize(width, height)
        opening.load(tab, page, place)
        tab.run("document.querySelector('#tabs [data-tab=picture]').click()")
        texts = drawn(tab)
        names = [(y, text) for text, x, y, _ in texts if re.search(r" · (?:sender )?(?:receiver )?\d+$", text) and x < 300]
        order = [re.sub(r" · .*", "", text) for _, text in sorted(names)]
        assert order[1:3] == ["client 38", "client 24"] and len(order) > 5, (width, order)
        words = sorted((y, text) for text, _, y, _ in texts if text in ("overwrote", "lost 5"))
        assert [text for _, text in words] == ["overwrote", "lost 5", "lost 5"], (width, texts)
        first, last = places_in_view(tab)
        assert abs((first + last) / 2 - place) <= 1, (width, first, last, place)
    tab.resize(1440, 920)


def told_rows_stay(tab, folder, journals):
    """Scrolled down, the rows of what is told stay below the head of their channel, over the others, and are pressed there."""
    page, place = addresses()[FORTY]
    opening.load(tab, page, place)
    before = {text: y for text, x, y, _ in drawn(tab) if text in ("client 38 · receiver 40", "client 24 · receiver 26", "lost 5", "overwrote")}
    assert len(before) == 4, before
    tab.run("void (document.getElementById('pane').scrollTop = 600)")
    tab.wait(f"{DRAWN}('picture').some(([text]) => text.startsWith('client 20 ·'))")
    texts = drawn(tab)
    assert {text: y for text, x, y, _ in texts if text in before} == before, (before, texts)
    lowest = max(y for text, _, y, _ in texts if text in before)
    others = [y for text, x, y, _ in texts if re.match(r"client \d+ ·", text) and text not in before]
    assert len(others) > 8 and min(others) > lowest, (lowest, others)
    left, top, _, _ = tab.box("#picture-box")
    tab.click_at(left + 90, top + before["client 24 · receiver 26"])
    opening.settle(tab, 707)
    assert tab.run("[document.querySelector('.loss h3').textContent, document.getElementById('pane').scrollTop]")[0].startswith("ec client 24 · receiver 26 lost 5"), tab.text("state")
    assert tab.run("document.getElementById('pane').scrollTop") == 600


# Whether a point of the picture has the colour of a variable.
HAS_COLOUR = """((x, y, variable) => {
    const pen = document.createElement('canvas').getContext('2d');
    pen.fillStyle = getComputedStyle(document.documentElement).getPropertyValue(variable).trim();
    pen.fillRect(0, 0, 1, 1);
    const [wanted, found] = [pen, document.getElementById('picture').getContext('2d')].map((of, i) => of.getImageData(i * x, i * y, 1, 1).data);
    return [0, 1, 2].every(part => Math.abs(wanted[part] - found[part]) < 12);
})"""


def culprits_look_wrong(tab, folder, journals):
    """The rows of who overwrote and of who lost have a red stripe at their left and a red line, in the light and in the dark, and no other row has one."""
    page, place = addresses()[FORTY]
    for scheme in ("light", "dark"):
        tab.prefer(scheme)
        opening.load(tab, page, place)
        rows = {text: y for text, x, y, _ in drawn(tab) if re.search(r" · (?:sender|receiver) \d+$", text) and x < 100}
        wrong = [text for text, y in rows.items() if tab.run(f"{HAS_COLOUR}(2, {round(y)}, '--lag')")]
        assert len(rows) > 8 and [text.split(" · ")[1] for text in wrong] == ["sender 0", "receiver 40", "receiver 26"], (scheme, wrong, list(rows))
    tab.prefer("light")


def tools_in_groups(tab, folder, journals):
    """Each control of the toolbar is in a group with a name that a screen reader says, and groups are farther from each other than the controls in them."""
    page, place = addresses()[FORTY]
    opening.load(tab, page, place)
    groups = tab.run("""[...document.querySelectorAll('.bar > *')].filter(it => it.checkVisibility()).map(group => [group.ariaLabel ?? group.querySelector('input').ariaLabel,
        [...group.querySelectorAll('button, input')].filter(it => it.checkVisibility()).map(it => (({ left, right }) => [left, right])(it.getBoundingClientRect()))])""")
    boxes = [box for _, those in groups for box in those]
    assert len(groups) >= 5 and all(name and those for name, those in groups) and boxes == sorted(boxes), groups
    within = [after[0] - before[1] for _, those in groups for before, after in zip(those, those[1:])]
    between = [after[0][0] - before[-1][1] for (_, before), (_, after) in zip(groups, groups[1:])]
    assert min(between) >= 2 * max(within), (within, between)


def rows_below_on_a_phone(tab, folder, journals):
    """On a phone the head, the heading of the first fact and, below, the rows of the picture at the place are in sight without a click, those who are told of
    first. The rows have two fifths of the window, and what is above them scrolls."""
    tab.resize(390, 844)
    for name, (page, place) in addresses().items():
        opening.load(tab, page, place)
        parts = ["#failed", "#answer h3", "#axis", "#pane", "#tabs"]
        boxes = tab.run(f"{json.dumps(parts)}.map(name => {{ const {{ top, bottom, height }} = document.querySelector(name).getBoundingClientRect(); return [top, bottom, height]; }})")
        assert all(height > 0 for _, _, height in boxes) and all(above[1] <= below[0] + 1 for above, below in zip(boxes, boxes[1:])), (name, boxes)
        assert boxes[3][2] >= 0.4 * 844, (name, boxes)
        first, last = places_in_view(tab)
        assert first <= place <= last, (name, first, place, last)
        names = [text.split(" · ")[0] for text, _, y, _ in drawn(tab) if " · " in text and y < boxes[3][2]]
        who = TABLE[name]["who"].split("; ")
        assert name == HANGS or any(it in names for it in who), (name, who, names)
        assert tab.run("document.getElementById('losses').scrollHeight > document.getElementById('losses').clientHeight"
                       " || document.getElementById('answer-box').getBoundingClientRect().bottom <= document.getElementById('pane').getBoundingClientRect().top"), name
    tab.resize(1440, 920)


# The sizes of letters that are less than 11 points, of elements and of drawings.
SMALL = """(() => {
    const small = [...document.querySelectorAll('body *')].filter(it => it.checkVisibility() && parseFloat(getComputedStyle(it).fontSize) < 11
        && [...it.childNodes].some(node => node.nodeType === Node.TEXT_NODE && node.data.trim() !== '')).map(it => it.outerHTML.slice(0, 80));
    const pens = CanvasRenderingContext2D.prototype, { fillText } = pens;
    pens.fillText = function (text, ...rest) {
        if (parseFloat(/([\\d.]+)px/.exec(this.font)[1]) < 11) small.push(`${text}: ${this.font}`);
        return fillText.call(this, text, ...rest);
    };
    dispatchEvent(new Event('resize'));
    pens.fillText = fillText;
    return small;
})()"""

# The controls of the toolbar: whether each has a name, a tip, an icon and room for a hand.
TOOLS = """[...document.querySelectorAll('.bar button')].filter(it => it.checkVisibility() && !it.closest('#chips')).map(it => {
    const { top, width, height } = it.getBoundingClientRect();
    return { id: it.id || it.value, name: it.ariaLabel, tip: it.title, icon: it.querySelector('svg').getBoundingClientRect().width, top, width, height };
})"""


def one_toolbar(tab, folder, journals):
    """The controls are icons with a name and a tip, in a row on a desk and in two on a phone, where the picture has half of the window. The slider can be
    hit. No letter is smaller than 11 points, and no backquote is shown."""
    for width, height, rows, slider in ((1440, 900, 1, 150), (1366, 768, 1, 140), (1024, 768, 2, 300), (390, 844, 2, 100)):
        tab.resize(width, height)
        for name in (FORTY, HANGS):
            page, place = addresses()[name]
            opening.load(tab, page, place)
            assert "`" not in tab.run("document.body.innerText"), name
            tab.run("document.querySelector('#tabs [data-tab=picture]').click()")
            tools = tab.run(TOOLS)
            assert len(tools) > 10 and all(it["name"] and it["tip"] and it["icon"] == 16 and min(it["width"], it["height"]) >= 24 for it in tools), tools
            assert len({it["top"] for it in tools}) == rows, (width, tools)
            assert tab.box("#slider")[2] >= slider, (width, tab.box("#slider"))
            assert tab.run("document.getElementById('pane').clientHeight / innerHeight") >= (0.5 if width > 1200 else 0.4), width
            assert tab.run(SMALL) == [], (width, tab.run(SMALL))
    tab.resize(1440, 920)


def legend_once(tab, folder, journals):
    """A line below the picture explains its marks, until it is closed: then it stays closed."""
    page, place = addresses()[FORTY]
    opening.load(tab, page, place)
    line = "document.getElementById('key-line').checkVisibility() && document.getElementById('key-line').innerText"
    assert "lost: overwritten before it was read" in tab.run(line) and "value not seen" not in tab.run(line), tab.run(line)
    high = tab.run("document.getElementById('pane').clientHeight")
    tab.click("#key-close")
    assert tab.run(line) is False and tab.run("document.getElementById('pane').clientHeight") > high
    opening.load(tab, page, place)
    assert tab.run(line) is False
    tab.run("localStorage.clear()")


def legend_of_the_run(tab, folder, journals):
    """The line explains the marks of calls that the run has, and no others. Where it has no room for all, it has that of a lag."""
    tab.resize(1024, 768)
    opening.load(tab, *addresses()[FORTY])
    shown = tab.run("""[...document.querySelectorAll('#key-line li')].filter(it => it.getBoundingClientRect().bottom <= it.parentElement.getBoundingClientRect().bottom + 1)
        .map(it => it.innerText.trim())""")
    tab.resize(1440, 920)
    assert "lagged" in shown and len(shown) < 8, shown
    for name, has, lacks in ((FORTY, ("received or seen", "nothing there, or only asked", "dropped"), ()), (HANGS, ("sent", "received or seen"), ("nothing there", "dropped"))):
        page, place = addresses()[name]
        opening.load(tab, page, place)
        line = tab.run("document.getElementById('key-line').innerText")
        assert all(it in line for it in has) and not any(it in line for it in lacks), (name, line)


def rows_named_in_whole(tab, folder, journals):
    """A name isn't cut for numbers of versions that a watch never comes to."""
    page, place = addresses()[HANGS]
    tab.resize(1024, 768)
    opening.load(tab, page, place)
    names = [text for text, *_ in drawn(tab) if text.endswith(" · receiver 1")]
    tab.resize(1440, 920)
    assert names == ["reader · receiver 1"], names


def calls_in_whole(tab, folder, journals):
    """In the list of calls the reply is in sight beside the file and the line."""
    page, place = addresses()[FORTY]
    opening.load(tab, page, place)
    rows = tab.run("""[...document.querySelectorAll('#calls button')].map(row => [row.querySelector('small').textContent,
        ...['span:not(.badge)', 'small'].map(part => (it => it.scrollWidth <= it.clientWidth)(row.querySelector(part)))])""")
    assert len(rows) > 8 and all(row[0].startswith("first_look.rs:") and row[1:] == [True, True] for row in rows), rows


# The letters of names in the card of a loss after which a line ends within the name.
ENDS_OF_LINES = """[...document.querySelectorAll('.loss dd > bdi')].flatMap(({ childNodes }) => {
    const range = document.createRange(), ends = [];
    let last = null;
    for (const node of [...childNodes].filter(it => it.nodeType === Node.TEXT_NODE)) {
        for (let at = 0; at < node.length; at++) {
            range.setStart(node, at);
            range.setEnd(node, at + 1);
            const { top } = range.getBoundingClientRect();
            if (last !== null && top > last.top) ends.push(last.letter);
            last = { top, letter: node.data[at] };
        }
    }
    return ends;
})"""


def names_end_at_words(tab, folder, journals):
    """A long name goes on in the next line behind one of its words."""
    ends = []
    for width, height in SIZES[:2]:
        tab.resize(width, height)
        for name in (FORTY, "the_overlapping_rooms_keep_their_talk"):
            page, place = addresses()[name]
            opening.load(tab, page, place)
            ends += tab.run(ENDS_OF_LINES)
    tab.resize(1440, 920)
    assert len(ends) >= 4 and set(ends) == {"_"}, ends


TESTS = [answered_without_a_click, picture_has_half, failure_is_the_head, hang_is_the_head, told_rows_come_first, told_rows_stay, rows_below_on_a_phone, one_toolbar, legend_once, culprits_look_wrong, tools_in_groups, legend_of_the_run, rows_named_in_whole, calls_in_whole, names_end_at_words]
