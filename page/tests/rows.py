"""The picture of many channels: what stays in sight, which rows are drawn, their order, folds and filter."""
import json
import re

import found
import native
import opening
import real_runs
from hands import GUTTER, places_in_view

SIZES = [(1440, 900), (1024, 768), (390, 844)]
HITS = 8

# The heights of a band's head and of the lowest row.
HEAD, LEAST_ROW = 24, 18

# Draws again, and returns each text of a canvas with where it is on it: left, middle, and width.
DRAWN = """(name => {
    const pens = CanvasRenderingContext2D.prototype, { fillText } = pens, texts = [];
    pens.fillText = function (text, x, y, ...rest) {
        const { e, f } = this.getTransform(), { width } = this.measureText(text);
        const left = this.textAlign === 'right' ? x - width : this.textAlign === 'center' ? x - width / 2 : x;
        if (this.canvas.id === name) texts.push([String(text), left + e, y + f, width]);
        return fillText.call(this, text, x, y, ...rest);
    };
    dispatchEvent(new Event('resize'));
    pens.fillText = fillText;
    return texts;
})"""

# The boxes of the parts in the window: left, top, right, bottom.
BOXES = """(names => names.map(name => {
    const { left, top, right, bottom } = document.querySelector(name).getBoundingClientRect();
    return [left, top, right, bottom];
}))"""


def drawn(tab, name="picture"):
    return tab.run(f"{DRAWN}({json.dumps(name)})")


def boxes(tab, *names):
    return tab.run(f"{BOXES}({json.dumps(names)})")


def page_of(folder, name, run):
    journal, names = run
    opening.put(folder, f"{name}.names", names)
    return opening.page_of(folder, f"{name}.journal", journal), opening.asker(journal)


def to_picture(tab):
    """Shows the picture where the parts of the page are shown one at a time."""
    tab.run("document.querySelector('#tabs [data-tab=picture]').click()")


def wide():
    """64 channels, each with 30 receivers, and 64 actors."""
    head = "broadcast 4\n" * 64 + "actors 64\n"
    made = "".join(f"{channel} {channel} subscribe 0\n" * 30 for channel in range(64))
    calls = "".join(f"{turn % 64} {turn % 64} send 0 {turn}\n{turn % 64} {turn % 64} try-recv {turn % 29 + 1}\n" for turn in range(500))
    return native.record((head + made + calls).encode())


def at_losses(tab, page, made, most):
    """Goes to at most `most` losses by L, on three sizes, and looks at each. Yields at the start of each size and at each loss, and whether it's the last."""
    path, ask = page
    losses = found.losses_of(ask, made)
    stops = found.stops_of(losses)[:most]
    for width, height in SIZES:
        tab.resize(width, height)
        opening.load(tab, path)
        to_picture(tab)
        yield not stops
        for number, place in enumerate(stops, 1):
            tab.key("l")
            opening.settle(tab, place)
            look_at_loss(tab, width, height, [it for it in losses if place in (it.start, it.to)])
            yield number == len(stops)
    tab.resize(1440, 920)


def seen_after_losses(tab, folder, journals):
    """After each L in the pool, on three sizes, the loss, sentence and list are inside the window, and so are strip, controls and axis."""
    for _ in at_losses(tab, page_of(folder, "pool", real_runs.pool()), real_runs.POOL_MADE, HITS):
        pass


def wide_after_losses(tab, folder, journals):
    """The same in a pool of 64 channels and 64 actors, where at most the rows that fit into the pane are drawn, at every zoom."""
    for is_last in at_losses(tab, page_of(folder, "wide pool", real_runs.wide_pool()), real_runs.WIDE_MADE, HITS // 2):
        few_rows(tab)
        if is_last:
            tab.key("0")
            tab.wait(f"document.getElementById('picture').getAttribute('aria-label').includes('to {real_runs.WIDE_MADE}')")
            few_rows(tab)


def few_rows(tab):
    """Names of rows are drawn only for as many as fit into the pane, one more at each edge, and the heads of their bands."""
    pane = tab.run("document.getElementById('pane').clientHeight")
    texts = drawn(tab)
    rows = [text for text, x, _, _ in texts if x < GUTTER and " · " in text and "receivers" not in text]
    heads = [text for text, _, _, _ in texts if re.fullmatch(r"jobs\.\d\d…?", text)]
    assert heads and len(rows) <= pane / LEAST_ROW + 2 and len(heads) <= pane / HEAD + 2, (pane, len(rows), len(heads))


def list_after_losses(tab, folder, journals):
    """After each L in the pool, in the least of the windows that aren't narrow, sentence, axis and the call in the list are inside the window."""
    path, ask = page_of(folder, "pool", real_runs.pool())
    stops = found.stops_of(found.losses_of(ask, real_runs.POOL_MADE))
    tab.resize(1024, 768)
    opening.load(tab, path)
    for place in stops:
        tab.key("l")
        opening.settle(tab, place)
        for left, top, right, bottom in boxes(tab, "#sentence", "#axis", "#calls [aria-current]"):
            assert 0 <= left < right <= 1024 and 0 <= top < bottom <= 768, (place, left, top, right, bottom)
    assert len(stops) > 150, len(stops)
    tab.resize(1440, 920)


def look_at_loss(tab, width, height, losses):
    """One of these losses is in sight: its label with the number of lost values in the row that is named after its receiver."""
    loss = max(losses, key=lambda it: it.lost)
    strip, bar, sentence, axis, pane, current = boxes(tab, "#strip-box", ".bar", "#sentence", "#axis", "#pane", "#calls [aria-current]")
    for left, top, right, bottom in (strip, bar, sentence, axis, pane, current):
        assert left >= 0 and right <= width and top >= 0 and bottom <= height and bottom > top, (width, loss, left, top, right, bottom)
    assert strip[3] - strip[1] <= height / 5 + 1, strip
    assert pane[3] - pane[1] > height / 4, pane
    assert tab.run("[document.documentElement.scrollHeight, document.documentElement.scrollWidth]") == [height, width]
    size = [pane[2] - pane[0], pane[3] - pane[1]]
    texts = drawn(tab)
    names = [(y, text) for text, _, y, _ in texts if text.endswith(f" {loss.receiver}") and 0 < y < size[1]]
    labels = [(x, y, wide) for text, x, y, wide in texts if text.split(" ")[0] == str(loss.lost) and 0 <= x and x + wide <= size[0]]
    assert any(abs(y - at) < 40 and 8 <= y <= size[1] - 8 for _, y, _ in labels for at, _ in names), (width, loss, labels, names)
    channel = tab.run("document.querySelector('#state .channel').dataset.channel")
    assert f" on jobs.{int(channel):02}:" in tab.text("sentence"), "the call's channel isn't the first of the panel"
    seen_in_strip(tab, f"jobs.{loss.channel:02}", strip[3] - strip[1])


def seen_in_strip(tab, name, height):
    rows = tab.run("document.getElementById('strip-box').scrollTop")
    (_, _, y, _), = [it for it in drawn(tab, "strip") if it[0] == name]
    assert rows <= y <= rows + height, "the channel's row of the strip is out of sight"


def rows_in_sight(tab, folder, journals):
    """Of 2,000 rows only those in sight are drawn, on a canvas as high as the pane. Scrolling shows the others."""
    opening.load(tab, opening.page_of(folder, "wide.journal", wide()), 2_500)
    height = tab.run("document.getElementById('pane').clientHeight")
    assert tab.run("document.getElementById('picture').height") == height
    assert tab.run("document.getElementById('space').offsetHeight") > 60_000
    assert len(drawn(tab)) < 300, len(drawn(tab))
    tab.run("void (document.getElementById('pane').scrollTop = 50_000)")
    tab.wait(f"{DRAWN}('picture').some(([text]) => /^channel 4\\d$/.test(text))")
    assert all(-40 < y < height + 40 for _, _, y, _ in drawn(tab))


# How many pixels of a canvas are drawn in the names' column, over the head that stays on top of the rows.
OVER_HEAD = """((gutter, head) => {
    const { data } = document.getElementById('cursor').getContext('2d').getImageData(0, 0, gutter, head);
    return data.filter((byte, i) => i % 4 === 3 && byte > 0).length;
})"""


def heads_over_rows(tab, folder, journals):
    """What is drawn about the place stays below the head that covers the rows as they are scrolled."""
    opening.load(tab, opening.page_of(folder, "wide.journal", wide()), 2_500)
    tab.key("End")
    tab.be_answered()
    covered = 0
    for top in range(50_000, 50_030, 5):
        tab.run(f"void (document.getElementById('pane').scrollTop = {top})")
        tab.be_answered()
        covered += sum(0 < y < HEAD for _, _, y, _ in drawn(tab, "cursor"))
        assert tab.run(f"{OVER_HEAD}({GUTTER}, {HEAD - 1})") == 0, top
    assert covered > 0, "no row was behind the head"


def order_of_rows(tab):
    """The names of the picture's rows and bands, with their heights."""
    return [[text, y] for text, x, y, _ in drawn(tab) if x < GUTTER and "·" in text and "receivers" not in text]


def same_order(tab, folder, journals):
    """The rows keep their order and their heights at every zoom and place, and what is written about them covers no flag."""
    path, _ = page_of(folder, "bus", real_runs.bus())
    opening.load(tab, path, 300)
    first = order_of_rows(tab)
    assert [text for text, _ in first][:4] == ["publisher · sender 0", "main · receiver 1", "ui · receiver 2", "metrics · receiver 3"], first
    for key in ("-", "-", "0", "+", "+", "End", "Home", "PageDown"):
        tab.key(key)
        tab.be_answered()
        assert order_of_rows(tab) == first, (key, order_of_rows(tab))
    opening.load(tab, path, 300)
    assert drawn(tab, "cursor") and all(x + width <= GUTTER for _, x, _, width in drawn(tab, "cursor")), drawn(tab, "cursor")


def nothing_moves(tab, folder, journals):
    """Nothing of the page moves when an answer comes, nor where the sentence is long."""
    path, _ = page_of(folder, "bus", real_runs.bus())
    parts = ["#strip-box", ".bar", "#place", "#loss-after", "#stops", "#said", "#axis", "#pane", "aside"]
    for width, height in SIZES:
        tab.resize(width, height)
        opening.load(tab, path)
        to_picture(tab)
        before = boxes(tab, *parts)
        for key in ("l", "ArrowRight", "End", "l", "Home"):
            tab.key(key)
            tab.run("ttd.ask('').then(() => ttd.ask(''))")
            assert boxes(tab, *parts) == before, (width, key, boxes(tab, *parts), before)
    tab.resize(1440, 920)


def texts_of(tab):
    return [text for text, _, _, _ in drawn(tab)]


def folds_and_filter(tab, folder, journals):
    """The field filters the rows by name, a head folds its rows, Z folds all, and the address keeps both."""
    path, _ = page_of(folder, "pool", real_runs.pool())
    opening.load(tab, path, 100)
    tab.key("f")
    tab.type("worker-03")
    rows = [text for text in texts_of(tab) if " · " in text and "receiver " in text]
    assert rows and all(text.startswith("worker-03 · receiver ") for text in rows), rows
    tab.wait("location.hash.endsWith('&filter=worker-03')")
    tab.run("(() => { const field = document.getElementById('filter'); field.value = 'nobody'; field.dispatchEvent(new Event('input')); })()")
    assert texts_of(tab) == ["no row has “nobody” in its name"], texts_of(tab)
    tab.run("(() => { const field = document.getElementById('filter'); field.value = ''; field.dispatchEvent(new Event('input')); field.blur(); })()")
    high = tab.run("document.getElementById('space').offsetHeight")
    left, top, _, _ = tab.box("#picture-box")
    tab.run("void (document.getElementById('pane').scrollTop = 0)")
    first = channels_of(tab)[0]
    tab.wait(f"{DRAWN}('picture').some(([text]) => text === '{first}')")
    tab.click_at(left + 40, top + 10)
    tab.wait(f"document.getElementById('space').offsetHeight < {high}")
    assert "▸" in texts_of(tab)
    opening.settle(tab, 100)
    tab.wait(f"location.hash.includes('&fold={int(first[-2:])}.actors')")
    address = tab.run("location.hash")
    tab.key("z")
    tab.wait("document.getElementById('fold-all').getAttribute('aria-pressed') === 'true'")
    assert not any(" · receiver " in text for text in texts_of(tab))
    tab.load(f"{path}{address}")
    opening.settle(tab, 100)
    tab.run("void (document.getElementById('pane').scrollTop = 0)")
    tab.wait(f"{DRAWN}('picture').some(([text]) => text === '{first}')")
    assert [text for text in texts_of(tab) if text in "▸▾"].count("▸") == 1, texts_of(tab)
    assert places_in_view(tab)


def fold_by_key(tab, folder, journals):
    """X folds the channel of the call, and unfolds it again: its rows are gone and come back, and the address keeps that."""
    path, ask = page_of(folder, "pool", real_runs.pool())
    opening.load(tab, path, 100)
    channel = int([line for line in ask("list\n").split("\n") if line.startswith("#100 ")][0].split(" ")[3])
    high = tab.run("document.getElementById('space').offsetHeight")
    tab.key("x")
    tab.wait(f"document.getElementById('space').offsetHeight < {high}")
    tab.wait(f"location.hash.includes('&fold={channel}.actors')")
    assert texts_of(tab).count("▸") >= 1, texts_of(tab)
    opening.settle(tab, 100)
    tab.key("x")
    tab.wait(f"document.getElementById('space').offsetHeight === {high} && !location.hash.includes('fold')")


def channels_of(tab):
    """The channels in the order of the strip."""
    return [text for text, _, _, _ in sorted(drawn(tab, "strip"), key=lambda it: it[2]) if text.startswith("jobs.")]


def lossy_first(tab, folder, journals):
    """Channels that lost most come first in strip, picture and panel, or all by number: by the button, by O, and by the address."""
    path, ask = page_of(folder, "pool", real_runs.pool())
    lost = [0] * real_runs.POOL_CHANNELS
    for loss in found.losses_of(ask, real_runs.POOL_MADE):
        lost[loss.channel] += loss.lost
    numbers = list(range(len(lost)))
    lossy = sorted(numbers, key=lambda channel: (-lost[channel], channel))
    assert lossy != numbers
    opening.load(tab, path)
    in_order(tab, lossy)
    tab.click("#order")
    in_order(tab, numbers)
    tab.wait("location.hash.endsWith('&order=number')")
    address = tab.run("location.hash")
    tab.key("o")
    in_order(tab, lossy)
    tab.load(f"{path}{address}")
    opening.settle(tab)
    in_order(tab, numbers)


def in_order(tab, channels):
    """Strip, picture and panel have the channels in this order, with that of the call first in the panel."""
    names = [f"jobs.{channel:02}" for channel in channels]
    assert channels_of(tab) == names, channels_of(tab)
    heads = [text for text, _, _, _ in sorted(drawn(tab), key=lambda it: it[2]) if text in names]
    assert heads and heads == names[:len(heads)], heads
    panel = tab.run("[...document.querySelectorAll('#state .channel')].map(it => Number(it.dataset.channel))")
    assert panel == channels, panel


def narrow_tabs(tab, folder, journals):
    """On a narrow screen answer, picture and state are shown one at a time, the answer first, below which is the picture without its controls."""
    path, _ = page_of(folder, "bus", real_runs.bus())
    tab.resize(390, 844)
    opening.load(tab, path, 300)
    shown = "['answer-box', 'picture', 'slider', 'state'].map(name => document.getElementById(name).checkVisibility())"
    assert tab.run(shown) == [True, True, False, False]
    tab.click("#tabs [data-tab=state]")
    assert tab.run(shown) == [False, False, False, True]
    tab.click("#tabs [data-tab=picture]")
    assert tab.run(shown) == [False, True, True, False]
    tab.resize(1440, 920)
