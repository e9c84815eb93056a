"""The layout of the failing tests' pages: nothing lies over anything, nothing is cut off, and each text can be read, in windows of each size, in the
light and in the dark."""
import itertools

import failing
import native
import opening
from rows import drawn

# The failing tests that show each kind of fact, and those with the most rows, and with the longest texts.
NAMES = ("no_price_is_missing", "the_orders_are_whole", "each_state_is_seen", failing.HANGS, "the_notes_are_whole", failing.FORTY)
SIZES = [(1440, 900), (1024, 768), (844, 390), (390, 844)]
# The least and the greatest windows, one at which controls wrap, and one of 1440 by 900 at 200 %.
FAR_SIZES = [(320, 568), (2560, 1440), (1280, 720), (900, 700), (720, 450)]
TABBED = "matchMedia('(max-width: 899px), (max-height: 499px)').matches"

# What of the page's parts is wrong: which lie over each other, are out of the window, or have words that are cut off without a sign of it.
MEASURE = """(() => {
    const parts = [...document.querySelectorAll('button, input, select, summary, a, h1, h3, th, #facts, #sentence, #place, #loss-line > span, .line, canvas, #calls li, .loss dd, .box')];
    const clipped = part => {
        let { left, top, right, bottom } = part.getBoundingClientRect();
        for (let around = part.parentElement; around; around = around.parentElement) {
            const style = getComputedStyle(around), box = around.getBoundingClientRect();
            if (style.overflowX !== 'visible') { left = Math.max(left, box.left); right = Math.min(right, box.right); }
            if (style.overflowY !== 'visible') { top = Math.max(top, box.top); bottom = Math.min(bottom, box.bottom); }
        }
        return { part, left, top, right, bottom };
    };
    const name = part => part.id ? '#' + part.id : `${part.tagName.toLowerCase()} ${part.textContent.slice(0, 30)}`;
    const isSeen = part => part.checkVisibility() && part.id !== 'skip' && getComputedStyle(part).pointerEvents !== 'none' && !part.closest('dialog');
    const boxes = parts.filter(isSeen).map(clipped).filter(it => it.right - it.left > 1 && it.bottom - it.top > 1);
    const faults = [];
    for (let i = 0; i < boxes.length; i++) {
        const a = boxes[i];
        const isControl = a.part.matches('button, input, a, #place, h1');
        if (a.right > innerWidth + 0.5 || a.left < -0.5) faults.push(`${name(a.part)} is out of the window`);
        if (a.part.matches('button, #place') && a.part.scrollWidth > a.part.clientWidth + 1 && getComputedStyle(a.part).textOverflow !== 'ellipsis') faults.push(`${name(a.part)} is cut off`);
        if (isControl && !a.part.closest('#table-box, #answer-box, aside, #losses, #calls') && a.bottom > innerHeight + 0.5) faults.push(`${name(a.part)} is below the window`);
        for (let j = i + 1; j < boxes.length; j++) {
            const b = boxes[j];
            const width = Math.min(a.right, b.right) - Math.max(a.left, b.left), height = Math.min(a.bottom, b.bottom) - Math.max(a.top, b.top);
            if (width <= 1.5 || height <= 3 || a.part.contains(b.part) || b.part.contains(a.part)) continue;
            // The layers of a drawing lie over each other, a loss may be a bar over the rows, and the head of a table over its rows.
            if (a.part.tagName === 'CANVAS' && b.part.tagName === 'CANVAS' || [a, b].some(it => it.part.id === 'peek' || it.part.closest('th'))) continue;
            faults.push(`${name(a.part)} and ${name(b.part)} lie over each other: ${width} x ${height}`);
        }
    }
    if (document.documentElement.scrollWidth > innerWidth || document.documentElement.scrollHeight > innerHeight) faults.push('the window scrolls');
    return faults;
})()"""

# The texts whose contrast to what is behind them is less than WCAG's AA wants.
CONTRASTS = """(() => {
    const pen = new OffscreenCanvas(1, 1).getContext('2d', { willReadFrequently: true });
    const drawn = colour => { pen.clearRect(0, 0, 1, 1); pen.fillStyle = colour; pen.fillRect(0, 0, 1, 1); return [...pen.getImageData(0, 0, 1, 1).data]; };
    const known = new Map(), rgba = colour => known.get(colour) ?? known.set(colour, drawn(colour)).get(colour);
    const channel = part => (part /= 255) <= 0.03928 ? part / 12.92 : ((part + 0.055) / 1.055) ** 2.4;
    const light = ([red, green, blue]) => 0.2126 * channel(red) + 0.7152 * channel(green) + 0.0722 * channel(blue);
    const behind = part => {
        for (let around = part; around; around = around.parentElement) {
            const colour = rgba(getComputedStyle(around).backgroundColor);
            if (colour[3] > 250) return colour;
        }
        return rgba(getComputedStyle(document.body).backgroundColor);
    };
    const faults = new Set(), walker = document.createTreeWalker(document.body, NodeFilter.SHOW_TEXT);
    for (let text = walker.nextNode(); text; text = walker.nextNode()) {
        const part = text.parentElement;
        if (!text.data.trim() || !part.checkVisibility() || part.closest('dialog, script')) continue;
        const style = getComputedStyle(part), [a, b] = [light(rgba(style.color)), light(behind(part))].sort((a, b) => b - a);
        const contrast = (a + 0.05) / (b + 0.05), size = parseFloat(style.fontSize), isLarge = size >= 24 || (size >= 18.66 && style.fontWeight >= 700);
        if (contrast < (isLarge ? 3 : 4.5)) faults.add(`${text.data.slice(0, 30)}: ${contrast.toFixed(2)}`);
    }
    const colours = getComputedStyle(document.documentElement);
    const [lag, unread] = ['--lag', '--unread'].map(name => light(rgba(colours.getPropertyValue(name)))).sort((a, b) => b - a);
    if ((lag + 0.05) / (unread + 0.05) < 3) faults.add('lost and to read');
    return [...faults];
})()"""


def overlaps(texts):
    """The pairs of drawn texts that lie over each other. A text is at least 8 points high."""
    return [(a, b) for a, b in itertools.combinations(texts, 2)
            if abs(a[2] - b[2]) < 8 and min(a[1] + a[3], b[1] + b[3]) - max(a[1], b[1]) > 1]


def check_drawn(tab, what):
    """No drawn text lies over another. The names that a shared row has at the place are those of the layer of the place."""
    for canvas in ("strip", "axis"):
        texts = drawn(tab, canvas)
        assert not overlaps(texts), (what, canvas, overlaps(texts))
    texts = drawn(tab, "picture") + drawn(tab, "cursor")
    assert not overlaps(texts), (what, overlaps(texts))


def parts_of(tab):
    """The parts of the page that are shown one at a time, or all at once."""
    return ["answer", "picture", "state", "receivers"] if tab.run(TABBED) else [None]


def look_at(tab, what):
    """Looks at each part of the page that is open."""
    for part in parts_of(tab):
        if part:
            tab.click(f"#tabs [data-tab={part}]")
        tab.run("new Promise(done => requestAnimationFrame(() => requestAnimationFrame(done)))")
        assert tab.run(MEASURE) == [], (what, part, tab.run(MEASURE)[:6])
        assert tab.run(CONTRASTS) == [], (what, part, tab.run(CONTRASTS))
        if part in (None, "picture"):
            check_drawn(tab, what)
            height = tab.run("[document.getElementById('pane').clientHeight, innerHeight]")
            assert height[0] >= height[1] / 4, (what, height)


def nothing_over_anything(tab, folder, journals):
    """In the pages of failing tests at four sizes, light and dark, no part and no drawn text lies over another, is cut off or out of the window, or has
    too little contrast, and the picture has a quarter of the window."""
    for name in NAMES[:native.rounds(1, len(NAMES))]:
        page, place = failing.addresses()[name]
        for width, height in SIZES:
            tab.resize(width, height)
            opening.load(tab, page, place)
            for scheme in ("light", "dark"):
                tab.prefer(scheme)
                look_at(tab, (name, width, height, scheme))
    tab.prefer("light")
    tab.resize(1440, 920)


def any_window(tab, folder, journals):
    """So it is from 320 to 2560 points of width, where controls wrap, and at 200 %. The slider can be grabbed wherever the picture is."""
    page, place = failing.addresses()["the_orders_are_whole"]
    for width, height in FAR_SIZES:
        tab.resize(width, height)
        opening.load(tab, page, place)
        look_at(tab, (width, height))
        if tab.run(TABBED):
            tab.click("#tabs [data-tab=picture]")
        assert tab.run("document.getElementById('slider').clientWidth") >= 60, (width, height)
    tab.resize(1440, 920)


# A sender that three actors share, with a name for each of them and a text for each value, in which calls follow each other closely.
SHARED = b"broadcast 4\nactors 4\n" + b"".join(b"%d 0 send 0 %d\n0 0 try-recv 1\n" % (1 + number % 3, number) for number in range(24))
SHARED_NAMES = (b'{"actors": {"0": "checkout", "1": "payments", "2": "stock", "3": "audit-log"}, "values": {"0": {'
                + b", ".join(b'"%d": "OrderPlaced %d"' % (number, number) for number in range(24)) + b"}}}")


def shared_sender(tab, folder, journals):
    """The names of those who call by a shared sender, and the texts of their values, are beside each other at each zoom."""
    opening.put(folder, "shared.names", SHARED_NAMES)
    opening.load(tab, opening.page_of(folder, "shared.journal", native.record(SHARED)), 9)
    seen = set()
    for key in ("0", "+", "+", "+"):
        tab.key(key)
        tab.run("ttd.ask('')")
        opening.settle(tab, 9)
        check_drawn(tab, key)
        seen |= {text.split(" ")[0] for text, _, _, _ in drawn(tab)}
    assert {"pa", "st", "al", "OrderPlaced"} <= seen, seen


def receivers_beside_a_value(tab, folder, journals):
    """A value that forty receivers read next keeps its room."""
    page, place = failing.addresses()[failing.FORTY]
    opening.load(tab, page, place)
    widths = tab.run("[...document.querySelectorAll('#state .values .box')].map(it => it.clientWidth)")
    assert widths and min(widths) >= 40, widths
    assert tab.run("(it => it.scrollWidth <= it.clientWidth)(document.querySelector('aside'))")


def first_tab_stop(tab, folder, journals):
    """The first stop of the tab key leads to the walk, whose keys work there, and it changes no address."""
    page, place = failing.addresses()["no_price_is_missing"]
    opening.load(tab, page, place)
    tab.run("document.activeElement.blur()")
    tab.key("Tab")
    assert tab.run("[document.activeElement.id, document.activeElement.getBoundingClientRect().width > 60].join()") == "skip,true"
    tab.key("Enter")
    tab.wait("document.activeElement.id === 'slider'")
    tab.key("ArrowRight")
    opening.settle(tab, place + 1)
    assert "#slider" not in tab.run("location.href")


SMALL = """[...document.querySelectorAll('button:not(.copy), input, summary, tr[data-receiver]')].filter(it => it.checkVisibility() && !it.closest('dialog'))
    .map(it => [it.id || it.textContent.slice(0, 20), it.getBoundingClientRect().height]).filter(([, height]) => height < 43.5)"""


# In how many rows the controls stand.
CONTROLS = "new Set([...document.querySelectorAll('.bar button')].filter(it => it.checkVisibility()).map(it => Math.round(it.getBoundingClientRect().top))).size"


def room_for_fingers(tab, folder, journals):
    """Where fingers point, each control is at least 44 points high, in two rows on a phone, and nothing lies over anything."""
    page, place = failing.addresses()["the_orders_are_whole"]
    tab.call("Emulation.setTouchEmulationEnabled", enabled=True)
    tab.call("Emulation.setDeviceMetricsOverride", width=390, height=844, deviceScaleFactor=1, mobile=True)
    opening.load(tab, page, place)
    assert tab.run("matchMedia('(pointer: coarse)').matches")
    for part in parts_of(tab):
        tab.click(f"#tabs [data-tab={part}]")
        tab.run("new Promise(done => requestAnimationFrame(() => requestAnimationFrame(done)))")
        assert tab.run(SMALL) == [], (part, tab.run(SMALL))
        assert tab.run(MEASURE) == [], (part, tab.run(MEASURE)[:6])
        assert part != "picture" or tab.run(CONTROLS) == 2, tab.run(CONTROLS)
    tab.call("Emulation.setTouchEmulationEnabled", enabled=False)
    tab.resize(1440, 920)


ON_PAPER = """[['answer-box', 'picture', 'state'].every(name => document.getElementById(name).checkVisibility()),
    ['slider', 'help-button', 'tabs', 'save'].some(name => document.getElementById(name).checkVisibility()),
    ['answer-box', 'pane', 'sentence'].every(name => (it => it.scrollHeight <= it.clientHeight + 1)(document.getElementById(name))),
    document.getElementById('state').getBoundingClientRect().top >= document.getElementById('pane').getBoundingClientRect().bottom]"""


def on_paper(tab, folder, journals):
    """In print are the account, the picture and below it the state, in whole, and no controls."""
    page, place = failing.addresses()["the_orders_are_whole"]
    opening.load(tab, page, place)
    assert tab.run(ON_PAPER) != [True, False, True, True]
    tab.call("Emulation.setEmulatedMedia", media="print")
    # The picture is drawn again once it has another width.
    tab.wait(f"JSON.stringify({ON_PAPER}) === '[true,false,true,true]'")
    tab.call("Emulation.setEmulatedMedia", media="")


TESTS = [on_paper, nothing_over_anything, any_window, shared_sender, receivers_beside_a_value, first_tab_stop, room_for_fingers]
