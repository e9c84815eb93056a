"""Values as texts in the panel and in the picture: numbers that a browser would round, and texts that are very long."""
import json

import native
import opening
from opening import check_place

LARGEST = 2**64 - 1
ROUNDED = 2**53 + 1
LONG = 20_000
NUMBERS = f"""watch {LARGEST}
broadcast 4
0 1 send 0 {LARGEST}
0 0 send 0 {LARGEST - 1}
0 1 send 0 {ROUNDED}
0 0 send 0 {ROUNDED}
0 1 send 0 {10**15 - 1}
0 1 send 0 {10**15}
0 1 send 0 {10**16 + 1}
0 1 recv 1
""".encode()

# Draws the page again, and returns each text in the picture with its start and its width, and how many letters were measured for that.
DRAWN_TEXTS = """(() => {
    const pens = CanvasRenderingContext2D.prototype, { fillText, measureText } = pens, texts = [];
    let measured = 0;
    pens.measureText = function (text) {
        measured += text.length;
        return measureText.call(this, text);
    };
    pens.fillText = function (text, x, y) {
        if (this.canvas.id === 'picture') texts.push([text, x, measureText.call(this, text).width]);
        return fillText.call(this, text, x, y);
    };
    dispatchEvent(new Event('resize'));
    Object.assign(pens, { fillText, measureText });
    return { texts, measured };
})()"""


def watch_values(tab):
    """The values of the watches in the picture."""
    return [it for it in tab.run(DRAWN_TEXTS)["texts"] if it[0].startswith("= ")]


def large_numbers(tab, folder, journals):
    """Values that a browser's number can't hold are shown with all their digits, and their names are found."""
    journal = native.record(NUMBERS)
    opening.load(tab, opening.page_of(folder, "numbers.journal", journal))
    ask = opening.asker(journal)
    for place in range(9):
        check_place(tab, ask, place)
        assert tab.run("document.querySelector('#state [data-channel=\"0\"] .box').textContent") == str([LARGEST, LARGEST - 1, ROUNDED][(place > 1) + (place > 3)])
        tab.key("ArrowRight")
    assert [text for text, _, _ in watch_values(tab)] == [f"= {LARGEST}", f"= {LARGEST - 1}", f"= {ROUNDED}"]
    names = {"values": {"0": {str(LARGEST - 1): "the last but one"}, "1": {str(LARGEST): "the last one"}}}
    opening.put(folder, "named.names", json.dumps(names).encode())
    opening.load(tab, opening.page_of(folder, "named.journal", journal), 2)
    assert tab.run("[...document.querySelectorAll('#state .box')].map(box => box.textContent)") == ["the last but one", "the last one"]


def long_texts(tab, folder, journals):
    """Texts of values that are very long are cut where they would run over others, and few of their letters are measured."""
    calls = [b"0 1 send 0 %d\n" % it * 4 for it in range(10)]
    script = b"watch 0\nbroadcast 4\n" + b"".join(sends + b"0 0 send 0 %d\n" % it for it, sends in enumerate(calls)) + calls[0]
    texts = {str(it): f"{it}" * LONG for it in range(10)}
    names = {"actors": {"0": "i" * LONG}, "channels": {"0": "W" * LONG, "1": "i" * LONG}, "values": {"0": texts, "1": texts}}
    opening.put(folder, "long.names", json.dumps(names).encode())
    opening.load(tab, opening.page_of(folder, "long.journal", native.record(script)))
    assert tab.run(DRAWN_TEXTS)["measured"] < 100_000
    values = watch_values(tab)
    assert [text[:3] for text, _, _ in values] == [f"= {it}" for it in range(10)], values
    for (text, x, width), (_, end, _) in zip(values, values[1:]):
        assert x + width <= end, f"{text} runs over the value behind it"
        assert x + width > end - 20, f"{text} is shorter than it may be"
