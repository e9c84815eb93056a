"""What the page looks like: pictures of the three runs, light and dark, narrow; names; large runs."""
import json
import os
import random

import native
import opening
import runs
from opening import check_place

HOSTILE = ["<img src=x onerror=alert(1)>", "</script><script>alert(2)</script>", "\" onmouseover=\"alert(3)", "javascript:alert(4)", "__proto__",
           "a" * 400]
MARKUP = "[document.querySelectorAll('img').length, document.querySelectorAll('script').length, window.alerted ?? false]"
# The scripts of a page without names: those of its file, one of which is its run, and the one that its loader unpacks.
OWN_SCRIPTS = 7 + 1
ALERTED = "void (window.alert = () => { window.alerted = true; })"


def lagging_picture(tab, folder, path):
    """A receiver that lags, with names for actors and channels."""
    opening.put(folder, "price_feed.names", runs.example_file("price_feed.names"))
    tab.resize(1280, 744)
    opening.load(tab, opening.page_of(folder, "price_feed.ttd", runs.example()), 22)
    tab.picture(path, "#left")
    tab.resize(1440, 920)


def pictures(tab, folder, journals):
    """The three runs are drawn, and pictures of them are written."""
    out = native.PICTURES
    os.makedirs(out, exist_ok=True)
    for calls, place in ((63, 22), (10_000, 4_200), (100_000, 50_000)):
        opening.load(tab, opening.page_of(folder, f"run_of_{calls}.journal", journals[calls]), place)
        check_place(tab, opening.asker(journals[calls]), place)
        tab.run("void (document.getElementById('told').open = false)")
        tab.picture(os.path.join(out, f"run_of_{calls}.png"))
        tab.key("0")
        tab.wait(f"document.getElementById('picture').getAttribute('aria-label').includes('The start and calls 1 to {calls},')")
        tab.picture(os.path.join(out, f"run_of_{calls}_whole.png"))
    lagging_picture(tab, folder, os.path.join(out, "lagging.png"))
    opening.load(tab, opening.page_of(folder, "dark.journal", journals[63]), 33)
    tab.prefer("dark")
    tab.wait("getComputedStyle(document.body).backgroundColor === 'rgb(25, 33, 42)'")
    tab.picture(os.path.join(out, "dark.png"))
    tab.prefer("light")
    tab.resize(390, 844)
    opening.load(tab, opening.page_of(folder, "narrow.journal", journals[63]), 33)
    assert tab.run("document.documentElement.scrollWidth") <= 390, "the page is wider than a narrow screen"
    tab.picture(os.path.join(out, "narrow.png"))
    tab.resize(1440, 920)


def points_of(tab, colour, left=0):
    """How many pixels of the picture have a colour of the style sheet, from this far to the right on."""
    return tab.run(f"""(() => {{
        const canvas = document.getElementById('picture');
        const {{ data }} = canvas.getContext('2d').getImageData({left}, 0, canvas.width, canvas.height);
        const colour = getComputedStyle(document.documentElement).getPropertyValue('{colour}');
        const [red, green, blue] = colour.trim().match(/[0-9a-f]{{2}}/g).map(part => parseInt(part, 16));
        let count = 0;
        for (let i = 0; i < data.length; i += 4) if (data[i] === red && data[i + 1] === green && data[i + 2] === blue) count++;
        return count;
    }})()""")


def lagging_is_red(tab, folder, journals):
    """The picture has the red of overwritten values exactly if the program's states have a lag."""
    quiet = native.record(b"broadcast 4\n" + b"0 0 send 0 1\n0 0 recv 1\n" * 20)
    opening.load(tab, opening.page_of(folder, "quiet.journal", quiet))
    assert points_of(tab, "--lag") == 0
    assert points_of(tab, "--unread") > 0
    late = native.record(b"broadcast 4\n" + b"0 0 send 0 1\n" * 20)
    opening.load(tab, opening.page_of(folder, "late.journal", late))
    assert points_of(tab, "--lag") > 100


def hostile_names(tab, folder, journals):
    """Names, values and the file's own name are shown as they are, and none of them is markup or runs."""
    texts = {str(number): text for number, text in enumerate(HOSTILE)}
    names = {"actors": texts, "channels": {key: texts[key] for key in "01"}, "values": {"0": {"107": HOSTILE[0], "104": HOSTILE[1]}, "1": {"450": HOSTILE[2]}}}
    opening.put(folder, "hostile <img src=x onerror=alert(5)>.names", json.dumps(names).encode())
    path = opening.page_of(folder, "hostile <img src=x onerror=alert(5)>.journal", journals[63])
    tab.load(path.replace(" ", "%20").replace("<", "%3C").replace(">", "%3E"), 22)
    tab.run(ALERTED)
    opening.settle(tab, 22)
    assert tab.text("facts").startswith("hostile <img src=x onerror=alert(5)>.journal"), tab.text("facts")
    assert HOSTILE[1] in tab.text("sentence") and HOSTILE[0] in tab.text("sentence"), tab.text("sentence")
    assert HOSTILE[0] in tab.text("state") and HOSTILE[2] in tab.text("state")
    assert HOSTILE[2] in tab.text("legend")
    for _ in range(3):
        tab.key("l")
    tab.be_answered()
    assert tab.run(MARKUP) == [0, 1 + OWN_SCRIPTS, False]


def refused_markup(tab, folder, journals):
    """Markup in a refused text is text."""
    tab.load(opening.page_of(folder, "markup.ttd", b"broadcast 4\n<img src=x onerror=alert(1)></script><script>alert(2)</script>\n"))
    tab.run(ALERTED)
    tab.wait("!document.getElementById('refusal').hidden")
    assert "</script><script>alert(2)</script>" in tab.text("refusal")
    assert tab.run(MARKUP) == [0, OWN_SCRIPTS, False]


def wrong_names(tab, folder, journals):
    """A file of names that can't be read is reported, and the run is shown by its numbers."""
    for text in (b"{", b"[]", b'{"actors": ["a"]}', b'{"actors": {"0": 1}}', b'{"values": {"0": "x"}}', b'{"colour": {}}', b'{"core": {}}'):
        opening.put(folder, "wrong.names", text)
        opening.load(tab, opening.page_of(folder, "wrong.journal", journals[63]), 1)
        assert tab.text("notice").startswith("The file of names isn't read: "), tab.text("notice")
        check_place(tab, opening.asker(journals[63]), 1)


def spoken(tab, folder, journals):
    """What a screen reader gets: the place with its call on the slider, and the state as texts under headings."""
    opening.load(tab, opening.page_of(folder, "spoken.journal", journals[63]), 22)
    value = tab.run("document.getElementById('slider').getAttribute('aria-valuetext')")
    assert value == "after call 22 of 63: actor 1 on channel 0: recv 1 → value 107 · actor 2 · receiver 2 has lost 102, 103", value
    nodes = tab.call("Accessibility.getFullAXTree")["nodes"]
    told = [(it["role"]["value"], it.get("name", {}).get("value", "")) for it in nodes if not it["ignored"]]
    headings = [name for role, name in told if role == "heading"]
    facts = tab.run("[...document.querySelectorAll('#answer .fact h3')].map(it => it.textContent)")
    assert len(facts) > 2
    wanted = {"Yovanelum", *facts, "actor 2 · receiver 2 lost 2 values not told yet", "channel 0 broadcast, capacity 4 open", "channel 1 watch open", "Calls around it"}
    assert set(headings) == wanted, headings
    texts = [name for role, name in told if role == "StaticText"]
    assert "2 overwritten" in texts and "has 0 of 1" in texts
    assert all(name for role, name in told if role in ("button", "textbox", "combobox", "slider")), "a control has no name"


def nothing_is_loaded(tab, folder, journals):
    """The page loads nothing: all that it needs is in its file, of less than 400,000 bytes."""
    assert os.path.getsize(native.PAGE) < 400_000
    opening.load(tab, opening.page_of(folder, "alone.journal", journals[63]))
    loaded = tab.run("performance.getEntriesByType('resource').map(it => it.name).filter(it => !it.startsWith('blob:'))")
    assert loaded == [], loaded
    assert tab.run("fetch('https://example.org').then(() => 'loaded', () => 'refused')") == "refused"
    tab.forget()


def quick_walking(tab, folder, journals):
    """After quick moves the picture is the same as when it is drawn again with all its states loaded."""
    opening.load(tab, opening.page_of(folder, "quick.journal", journals[100_000]), 50_000)
    for key in ["PageDown"] * 5 + ["-", "-", "PageUp", "-", "PageDown", "+"]:
        tab.call("Input.dispatchKeyEvent", type="keyDown", key=key)
    opening.settle(tab, tab.run("document.getElementById('slider').valueAsNumber"))
    tab.be_answered()
    drawn = "document.getElementById('picture').toDataURL()"
    shown = tab.run(drawn)
    tab.run("void dispatchEvent(new Event('resize'))")
    assert tab.run(drawn) == shown


def many_handles(tab, folder, journals):
    """A run with thousands of receivers alive at once opens, and the page shows how many it leaves out."""
    script = b"broadcast 4\n" + b"0 0 subscribe 0\n" * 3000 + b"0 0 send 0 1\n" * 9
    opening.load(tab, opening.page_of(folder, "many.ttd", script), 3005)
    assert "receiversand 2,937 more" in tab.text("state"), tab.text("state")[:2000]
    tab.key("0")
    tab.wait("document.getElementById('picture').getAttribute('aria-label').includes('to 3009')")


def large_runs(tab, folder, journals):
    """Walking and searching in the runs of 10,000 and 100,000 calls."""
    for calls in (10_000, 100_000):
        chance = random.Random(calls)
        opening.load(tab, opening.page_of(folder, f"large_{calls}.journal", journals[calls]))
        ask = opening.asker(journals[calls])
        for _ in range(4):
            place = chance.randrange(calls)
            tab.run(f"void (location.hash = '#call={place}')")
            check_place(tab, ask, place)
            answer = ask(f"goto {place}\nrforward reply lagged\n").rstrip("\n").split("\n")[-1]
            tab.click("#stops [value=rforward]")
            check_place(tab, ask, int(answer.split(" ")[1]))
