"""Texts that turn their surroundings round, or hide: what the page shows of them is in order, and nothing of it is hidden."""
import json

import native
import opening

# Every control of the Unicode Bidirectional Algorithm (its property Bidi_Control), and other characters that nothing is drawn for.
BIDI = "\u061c\u200e\u200f\u202a\u202b\u202c\u202d\u202e\u2066\u2067\u2068\u2069"
HIDDEN = "\u0000\u0009\u000a\u000d\u007f\u0085\u00ad\u034f\u115f\u180e\u200b\u200c\u200d\u2028\u2029\u2060\u3164\ufe0f\ufeff\ufff9\U000e0041"
SCRIPT = b"broadcast 2\nwatch 5\nactors 2\n1 0 send 0 7\n1 0 recv 1\n1 1 send 0 9\n0 1 update 1\n"

# All texts of the page, of its attributes, its title, its drawings and its fields, as one text.
EVERYTHING = """(() => {
    const pens = CanvasRenderingContext2D.prototype, { fillText } = pens, texts = [document.title];
    pens.fillText = function (text, ...where) {
        texts.push(text);
        return fillText.call(this, text, ...where);
    };
    dispatchEvent(new Event('resize'));
    pens.fillText = fillText;
    for (const it of document.querySelectorAll('body *:not(script)')) {
        for (const { value } of it.attributes) texts.push(value);
        for (const part of it.childNodes) if (part.nodeType === Node.TEXT_NODE) texts.push(part.data);
    }
    return texts.join('\\n');
})()"""

# The letters of an element in the order of its text: where each begins, with its line.
LETTERS = """(name => {
    const letters = [], range = document.createRange();
    const texts = document.createTreeWalker(document.querySelector(name), NodeFilter.SHOW_TEXT);
    while (texts.nextNode()) for (let i = 0; i < texts.currentNode.length; i++) {
        range.setStart(texts.currentNode, i);
        range.setEnd(texts.currentNode, i + 1);
        const box = range.getBoundingClientRect();
        if (box.width) letters.push([Math.round(box.bottom), box.left, texts.currentNode.data[i]]);
    }
    return letters;
})"""


def named(folder, name, text):
    """A page of a run in which actors, channels and values have names with this text inside. Its file has `name`."""
    names = {"actors": {"1": f"ac{text}tor"}, "channels": {"0": f"chan{text}nel", "1": f"wa{text}tch"},
             "values": {"0": {"7": f"val{text}ue"}, "1": {"9": f"new{text}est"}}}
    opening.put(folder, f"{name}.names", json.dumps(names).encode())
    return opening.page_of(folder, f"{name}.journal", native.record(SCRIPT))


def written(character):
    return f"⟨U+{ord(character):04X}⟩"


def in_order(tab, name):
    """Whether the letters of an element stand from left to right in the order of its text."""
    letters = tab.run(f"{LETTERS}({json.dumps(name)})")
    assert letters, f"{name} has no letters"
    for (line, left, letter), (next_line, next_left, next_letter) in zip(letters, letters[1:]):
        assert next_line > line + 3 or next_left > left, f"{name}: {next_letter} stands before {letter}"


def written_out(tab, folder, journals):
    """Each bidi control, and each other hidden character, is written out by its number wherever a name or a text with it is shown."""
    opening.load(tab, named(folder, "controls", f"{BIDI}{HIDDEN}"), 2)
    shown = tab.run(EVERYTHING)
    for character in BIDI + HIDDEN:
        assert character == "\n" or character not in shown, f"U+{ord(character):04X} stands in the page as it is"
        for name in ("sentence", "state", "legend"):
            shown_as = "↵" if character == "\n" else written(character)
            assert shown_as in tab.text(name), f"{name} lacks {shown_as}"
    for name in ("#sentence", "#state h3", "#facts"):
        in_order(tab, name)
    journal = opening.put(folder, f"fi{BIDI}le", native.record(SCRIPT))
    tab.drop(journal)
    tab.wait("document.getElementById('facts').textContent.startsWith('fi')")
    shown = tab.run(EVERYTHING)
    assert not set(BIDI) & set(shown)
    for character in BIDI:
        assert written(character) in tab.text("facts") and written(character) in tab.run("document.title"), tab.text("facts")
    tab.drop(opening.put(folder, "refused.ttd", f"broadcast 2\n0 0 send 0 {BIDI}7\r\n".encode()))
    tab.wait("!document.getElementById('refusal').hidden")
    assert f"0 0 send 0 {''.join(map(written, BIDI))}7{written(chr(13))}" in tab.text("refusal"), tab.text("refusal")


def right_to_left(tab, folder, journals):
    """A name in Hebrew is shown from right to left, and the text before and behind it keeps its place. An emoji stays whole."""
    opening.load(tab, named(folder, "hebrew", "\u05d0\u05d1\u05d2"), 2)
    assert written("\u05d0") not in tab.text("sentence")
    tab.drop(opening.put(folder, "\u05d0\u05d1\u05d2", native.record(SCRIPT)))
    tab.wait("document.title.includes('\u05d0') && document.getElementById('facts').textContent.includes('4 calls')")
    letters = tab.run(f"{LETTERS}('#facts')")
    assert [it[2] for it in sorted(letters, key=lambda it: it[1])][:6] == ["\u05d2", "\u05d1", "\u05d0", " ", "·", " "], letters
    emoji = "\U0001f469\u200d\U0001f4bb \u26a0\ufe0f"
    opening.load(tab, named(folder, "emoji", emoji), 2)
    assert f"ac{emoji}tor" in tab.text("sentence"), tab.text("sentence")
