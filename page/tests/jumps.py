"""Jumps are steps of the browser's history, the address keeps what is seen, and what is seen can be taken along."""
import json
import os
import re
from xml.etree import ElementTree

import failing
import found
import opening
import real_runs
from hands import GUTTER, MARGIN, column_x, places_in_view

# Keeps what is written to the clipboard, as a browser does that allows it.
CLIPBOARD = "Object.defineProperty(navigator, 'clipboard', { value: { writeText: async text => { window.copied = text; } } })"

# Keeps the picture that is saved.
SAVED = """(() => {
    const { createObjectURL } = URL;
    URL.createObjectURL = blob => createObjectURL(window.saved = blob);
})()"""

# Its size, how many of its points can be looked through, and the colours of its left upper point and of the point below all drawings.
POINTS = """createImageBitmap(saved).then(image => {
    const pen = new OffscreenCanvas(image.width, image.height).getContext('2d');
    pen.drawImage(image, 0, 0);
    const { data } = pen.getImageData(0, 0, image.width, image.height);
    let clear = 0;
    for (let i = 3; i < data.length; i += 4) if (data[i] !== 255) clear++;
    return { type: saved.type, width: image.width, height: image.height, clear, corner: [...data.slice(0, 3)] };
})"""


def bus_page(folder):
    journal, names = real_runs.bus()
    opening.put(folder, "bus.names", names)
    return opening.page_of(folder, "bus.journal", journal), opening.asker(journal)


def step_of_history(tab, by):
    tab.run(f"history.go({by})")


def history_of_jumps(tab, folder, journals):
    """Back and forward go through the places from which jumps were made: L, Home, End, clicks on a call, the strip and the picture."""
    path, ask = bus_page(folder)
    opening.load(tab, path)
    stops = found.stops_of(found.losses_of(ask, 648))
    steps = [0]
    for key, place in (("l", stops[0]), ("l", stops[1]), ("End", 648), ("Home", 0)):
        tab.key(key)
        opening.settle(tab, place)
        steps.append(place)
    tab.click("#calls [data-place='9']")
    opening.settle(tab, 9)
    tab.key("ArrowRight")
    tab.key("ArrowRight")
    opening.settle(tab, 11)
    x, top = column_x(tab, "#strip-box", 300, 649)
    tab.click_at(x, top + 20)
    opening.settle(tab, 300)
    steps += [11, 300]
    for place in reversed(steps[:-1]):
        step_of_history(tab, -1)
        opening.settle(tab, place)
    for place in steps[1:]:
        step_of_history(tab, 1)
        opening.settle(tab, place)
    check_names(tab, ask, 300)


def check_names(tab, ask, place):
    """The place that is shown, and the entry that the program writes for it."""
    step = ask(f"goto {place}\nstep\n").split("\n")[1]
    assert tab.text("place") == f"call {place} of 648" and step.split(" = ")[1].split(" ")[0] in tab.text("sentence"), tab.text("sentence")


def address_keeps(tab, folder, journals):
    """The address keeps the place, what is in view and the condition, and opens there again."""
    path, _ = bus_page(folder)
    opening.load(tab, path, 120)
    for key in ("+", "PageDown", "-"):
        tab.key(key)
    tab.run("document.getElementById('condition').select()")
    tab.type("lagging 0 6")
    tab.key("Enter")
    tab.wait("document.getElementById('found').textContent.startsWith('hit')")
    tab.run("document.activeElement.blur()")
    place = tab.run("document.getElementById('slider').valueAsNumber")
    opening.settle(tab, place)
    tab.key("+")
    tab.wait("new URLSearchParams(location.hash.slice(1)).get('view').split('-').map(Number).reduce((from, to) => to - from) === 32")
    address, view = tab.run("location.hash"), places_in_view(tab)
    assert address == f"#call={place}&view={view[0]}-{view[1]}&stop=lagging+0+6", address
    tab.load(f"{path}{address}")
    opening.settle(tab, place)
    assert places_in_view(tab) == view
    assert tab.run("document.getElementById('condition').value") == "lagging 0 6"
    for wrong in ("#call=x&view=9-", "#place=x&view=9-", "#view=99999-9999999999", "#call=99999&view=5-1", "#stop=%00"):
        tab.load(f"{path}{wrong}")
        # Without a place, it is opened where its account says.
        opening.settle(tab, 648 if "99999&" in wrong else None if "stop" in wrong else 0)


def console_commands(tab, folder, journals):
    """What is copied leads the console to the place, by the search that led there or by its number."""
    path, ask = bus_page(folder)
    opening.load(tab, path, 30)
    tab.run(f"void {CLIPBOARD}")
    tab.click("#stops [value=rforward]")
    tab.wait("document.getElementById('found').textContent.startsWith('hit')")
    place = tab.run("document.getElementById('slider').valueAsNumber")
    opening.settle(tab, place)
    tab.click("#copy")
    tab.wait("document.getElementById('copied').textContent === 'copied'")
    copied = tab.run("copied")
    assert copied == "goto 30\nrforward reply lagged\nstep\nstate\n", copied
    assert ask(copied).split("\n", 2)[2] == ask(f"goto {place}\nstep\nstate\n").split("\n", 1)[1]
    tab.key("ArrowRight")
    tab.click("#copy")
    tab.wait(f"copied === 'goto {place + 1}\\nstep\\nstate\\n'")


def picture_as_png(tab, folder, journals):
    """The picture is saved as a PNG that can't be looked through, in the light and in the dark."""
    path, _ = bus_page(folder)
    opening.load(tab, path, 30)
    tab.run(SAVED)
    downloads = os.path.join(folder, "downloads")
    tab.browser.call("Browser.setDownloadBehavior", behavior="allow", downloadPath=downloads, eventsEnabled=True)
    for scheme, card in (("light", [255, 255, 255]), ("dark", [25, 33, 42])):
        tab.prefer(scheme)
        tab.run("void delete window.saved")
        tab.click("#save")
        tab.wait("window.saved")
        saved = tab.run(POINTS)
        assert saved["type"] == "image/png" and saved["clear"] == 0 and saved["corner"] == card, saved
        heights = "['strip', 'picture'].reduce((sum, name) => sum + document.getElementById(name).height, 0)"
        # Below the drawings are the card of a loss, and the legend.
        notes = tab.run("document.querySelectorAll('#state .loss h3, #state .loss dl > div, #legend li').length")
        assert notes > 5 and saved["width"] == tab.run("document.getElementById('picture').width") and saved["height"] > tab.run(heights) + 18 * notes, saved
        while tab.browser.event("Browser.downloadProgress", None)["state"] != "completed":
            pass
    tab.prefer("light")
    with open(os.path.join(downloads, "bus.journal.call-30.png"), "rb") as file:
        assert file.read(8) == b"\x89PNG\r\n\x1a\n"


def picture_as_svg(tab, folder, journals):
    """The picture is saved as SVG: whole XML of shapes and texts, without an image or a script, that a browser draws as the page is drawn."""
    path, _ = bus_page(folder)
    opening.load(tab, path, 30)
    downloads = os.path.join(folder, "downloads")
    tab.browser.call("Browser.setDownloadBehavior", behavior="allow", downloadPath=downloads, eventsEnabled=True)
    tab.click("#save-svg")
    while tab.browser.event("Browser.downloadProgress", None)["state"] != "completed":
        pass
    root = ElementTree.parse(os.path.join(downloads, "bus.journal.call-30.svg")).getroot()
    names = {it.tag.split("}")[1] for it in root.iter()}
    assert names == {"svg", "title", "defs", "clipPath", "path", "rect", "g", "text"}, names
    texts = ["".join(it.itertext()) for it in root.iter() if it.tag.endswith("text")]
    wanted = [tab.text("sentence"), *tab.run("[...document.querySelectorAll('#legend li')].map(item => item.lastChild.textContent.trim() || item.lastElementChild.textContent)")]
    assert wanted[0] in texts[0] and all(text in texts for text in wanted[1:]), (wanted, texts)
    card = tab.run("[...document.querySelectorAll('#state .loss dt')].map(part => part.textContent)")
    assert all(any(text.startswith(head) for text in texts) for head in card), (card, texts)
    # As an image, its rows have the colours of the page's in the same points. The page itself lets no image be loaded.
    own, above = tab.run(ROWS)
    tab.call("Page.navigate", url="about:blank")
    tab.browser.event("Page.loadEventFired", tab.session)
    with open(os.path.join(downloads, "bus.journal.call-30.svg"), encoding="utf-8") as file:
        same = tab.run(SAME_POINTS % (json.dumps(own), json.dumps(file.read()), above))
    assert same > 0.97, same


# The rows of the page as an image, and how high what is above them in a saved picture is.
ROWS = """(() => {
    const [rows, above] = ["picture", "cursor"].map(name => document.getElementById(name));
    const whole = document.createElement("canvas");
    [whole.width, whole.height] = [rows.width, rows.height];
    const pen = whole.getContext("2d");
    pen.fillStyle = "#fff";
    pen.fillRect(0, 0, rows.width, rows.height);
    pen.drawImage(rows, 0, 0);
    pen.drawImage(above, 0, 0);
    return [whole.toDataURL(), document.getElementById("strip").height + document.getElementById("axis").height + 26];
})()"""

# The share of the points of an image that an SVG has in the same colour, or nearly so, from a height on.
SAME_POINTS = """(async (own, svg, above) => {
    const points = async (address, top) => {
        const image = new Image();
        image.src = address;
        await image.decode();
        const drawn = document.createElement("canvas");
        [drawn.width, drawn.height] = [image.width, image.height];
        const pen = drawn.getContext("2d");
        pen.drawImage(image, 0, -top);
        return pen.getImageData(0, 0, image.width, image.height).data;
    };
    const a = await points(own, 0);
    const b = await points(URL.createObjectURL(new Blob([svg], { type: "image/svg+xml" })), above);
    let same = 0;
    for (let i = 0; i < a.length; i += 4) same += Math.abs(a[i] - b[i]) + Math.abs(a[i + 1] - b[i + 1]) + Math.abs(a[i + 2] - b[i + 2]) < 60;
    return same / (a.length / 4);
})(%s, %s, %s)"""


def report_as_markdown(tab, folder, journals):
    """What is copied as Markdown has how the test failed in the panic's own words, the account, the call at the place, the loss there and where the page is,
    which is no address on this machine, and its fences hold what is in them. Each step has its place in the sources."""
    page, place = failing.addresses()["no_price_is_missing"]
    opening.load(tab, page, place)
    tab.wait("location.hash.includes('view')")
    tab.run(f"void {CLIPBOARD}")
    tab.click("#report")
    tab.wait("document.getElementById('copied').textContent === 'copied'")
    copied = tab.run("copied")
    with open(failing.beside(page, ".names"), encoding="utf-8") as file:
        account = json.load(file)["account"]
    told = [*(fact["text"] for fact in account["facts"][:account["rest"]["after"]]), [account["rest"]["text"]]]
    fences = r"(### .*)\n\n(```+)text\n(.*?)\n\2\n\n```+text\n(.*?)\n```+\n\n```+text\n(.*?)\n```+\n\n(.*)\n"
    head, failed, found_, here, link = re.fullmatch(fences, copied, re.S).group(1, 3, 4, 5, 6)
    assert head == "### no\\_price\\_is\\_missing.journal" and found_ == "\n".join(line for fact in told for line in fact), copied
    where = failing.line_of("the auditor is told")
    assert failed == f"no_price_is_missing failed at {where}:\nassertion `left == right` failed\n  left: Err(Lagged(3))\n right: Ok(101)", failed
    steps = [line for line in [*found_.split("\n"), *here.split("\n")] if re.match("  call |call |cause|end", line)]
    assert len(steps) == 5 and all(re.search(r"\w\.rs:\d+", line) for line in steps), steps
    lines = here.split("\n")
    assert lines[0].startswith("call 3 of 8: ticker on prices: send 0 2 → sent 1 at src/lib.rs:") and lines[1].startswith("auditor · receiver 1 lost 1 of 3"), lines
    assert "file:" not in copied and link == f"In the page `{os.path.basename(page)}`, at `{tab.run('location.hash')}`.", link


def help_of_keys(tab, folder, journals):
    """`?` shows the keys. While they are shown no key walks, and Escape or the button hides them."""
    path, _ = bus_page(folder)
    opening.load(tab, path, 3)
    tab.key("?")
    tab.wait("document.getElementById('help').open")
    rows = tab.run("[...document.querySelectorAll('#help dt')].map(it => it.textContent)")
    assert {"?", "L, with Shift back", "/", "0"} <= set(rows), rows
    assert tab.run("[document.getElementById('editor').value, document.activeElement.id]") == ["vscode://file/{file}:{line}:{column}", "help"]
    tab.key("ArrowRight")
    tab.click("#help form button")
    tab.wait("!document.getElementById('help').open")
    tab.click("#help-button")
    tab.wait("document.getElementById('help').open")
    tab.key("Escape")
    tab.wait("!document.getElementById('help').open")
    opening.settle(tab, 3)
    tab.key("ArrowRight")
    opening.settle(tab, 4)


def place_under(tab, x):
    """The place in the picture under a point of the window, by what is in view and how wide the picture is."""
    left, _, width, _ = tab.box("#picture-box")
    first, last = places_in_view(tab)
    return first + int((x - left - GUTTER) / (width - GUTTER - MARGIN) * (last - first + 1))


def zoom_at_pointer(tab, folder, journals):
    """With Ctrl the wheel zooms around the place under the pointer."""
    path, _ = bus_page(folder)
    opening.load(tab, path, 300)
    left, top, width, _ = tab.box("#picture-box")
    for share in (0.207, 0.503, 0.771):
        x = round(left + GUTTER + share * (width - GUTTER - MARGIN))
        under = place_under(tab, x)
        for turned in (-120, -120, 120, 120, 120, -120):
            before = places_in_view(tab)
            tab.mouse("mouseWheel", x, top + 90, deltaX=0, deltaY=turned, modifiers=2)
            tab.wait(f"!document.getElementById('picture').getAttribute('aria-label').includes({json.dumps(f'alls {max(1, before[0])} to {before[1]},')})")
            assert place_under(tab, x) == under, (share, turned, before, places_in_view(tab))
    opening.settle(tab, 300)


def touched(tab, kind, *points):
    tab.call("Input.dispatchTouchEvent", type=kind, touchPoints=[{"x": x, "y": y} for x, y in points])


def touch(tab, folder, journals):
    """A finger that moves over the picture pans it, and one that is lifted where it was laid picks. A swipe over the strip picks nothing."""
    path, _ = bus_page(folder)
    tab.call("Emulation.setTouchEmulationEnabled", enabled=True)
    opening.load(tab, path, 300)
    x, top = column_x(tab, "#picture-box", 40, 65)
    before = places_in_view(tab)
    pitch = (tab.box("#picture-box")[2] - GUTTER - MARGIN) / 65
    touched(tab, "touchStart", (x, top + 90))
    for step in range(1, 11):
        touched(tab, "touchMove", (x - (step + 0.2) * pitch, top + 90))
    touched(tab, "touchEnd")
    tab.wait(f"document.getElementById('picture').getAttribute('aria-label').startsWith('Calls {before[0] + 10} to ')")
    opening.settle(tab, 300)
    touched(tab, "touchStart", (x, top + 90))
    touched(tab, "touchEnd")
    opening.settle(tab, before[0] + 10 + 40)
    x, top = column_x(tab, "#strip-box", 500, 649)
    touched(tab, "touchStart", (x, top + 20))
    for step in range(1, 6):
        touched(tab, "touchMove", (x - 20 * step, top + 20))
    touched(tab, "touchEnd")
    opening.settle(tab, before[0] + 10 + 40)
    touched(tab, "touchStart", (x, top + 20))
    touched(tab, "touchEnd")
    opening.settle(tab, 500)
