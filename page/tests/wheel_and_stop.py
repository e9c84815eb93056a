"""The wheel, and the field for a stop, in the real browser."""
import opening
from hands import places_in_view
from opening import check_place

SHIFT, CTRL = 8, 2

# Turns of the wheel one after the other: over what, how far sideways and down, with which keys; and then the first and the last place in
# view. A turn scrolls a tenth of what is in view. Zooming over the strip keeps the first place in view, if the current place is out of view.
TURNS = [
    ("#strip-box", 0, 120, 0, [6, 70]), ("#strip-box", 0, 120, 0, [12, 76]), ("#strip-box", 0, -120, 0, [6, 70]),
    ("#strip-box", 120, 0, 0, [12, 76]), ("#picture-box", 0, 120, 0, [12, 76]), ("#picture-box", 120, 0, 0, [18, 82]),
    ("#picture-box", 0, 120, SHIFT, [24, 88]), ("#picture-box", 0, -120, SHIFT, [18, 82]), ("#strip-box", 0, 120, CTRL, [18, 98]),
    ("#strip-box", 0, 120, CTRL, [18, 118]), ("#strip-box", 0, -120, CTRL, [18, 98]), ("#strip-box", 0, -120, CTRL, [18, 82]),
    ("#picture-box", -120, 0, 0, [12, 76]), ("#strip-box", 0, -120, 0, [6, 70]), ("#strip-box", 0, -120, 0, [0, 64]),
    ("#strip-box", 0, -120, 0, [0, 64]),
]


# Counts the turns that the page was told of. The browser may say that one is over before the page is.
COUNT_TURNS = "void (window.turns = 0, addEventListener('wheel', () => { window.turns++; }, { passive: true }))"


def turn(tab, number, box, sideways, down, modifiers):
    """Turns the wheel in the middle of an element, and waits until the page was told of this turn and has drawn the result."""
    left, top, width, height = tab.box(box)
    tab.mouse("mouseWheel", left + width / 2, top + height / 2, deltaX=sideways, deltaY=down, modifiers=modifiers)
    tab.wait(f"window.turns === {number}")
    tab.be_answered()


def wheel(tab, folder, journals):
    """The wheel scrolls through time over the strip, and over the picture sideways or with Shift; with Ctrl over the strip it zooms. The place stays."""
    opening.load(tab, opening.page_of(folder, "wheel.journal", journals[10_000]))
    assert places_in_view(tab) == [0, 64]
    tab.run(COUNT_TURNS)
    for number, (box, sideways, down, modifiers, wanted) in enumerate(TURNS, 1):
        turn(tab, number, box, sideways, down, modifiers)
        assert places_in_view(tab) == wanted, (number, places_in_view(tab))
    check_place(tab, opening.asker(journals[10_000]), 0)


def field(tab):
    """The element with the focus, its text, and how much of that is selected."""
    return tab.run("""(() => {
        const { id, value, selectionStart, selectionEnd } = document.activeElement;
        return [id, value, value && selectionEnd - selectionStart];
    })()""")


def stop_field(tab, folder, journals):
    """`/` focuses the field for a stop and selects its text. Keys are letters there. Enter searches, with Shift back. Escape leaves."""
    opening.load(tab, opening.page_of(folder, "field.journal", journals[63]))
    ask = opening.asker(journals[63])
    tab.key("/")
    assert field(tab) == ["condition", "reply lagged", 12], field(tab)
    for letter in "reply lagged":
        tab.key(letter)
    assert field(tab) == ["condition", "reply lagged", 0], field(tab)
    check_place(tab, ask, 0)
    for shift, place in ((False, 23), (False, 33), (True, 23)):
        tab.key("Enter", shift)
        check_place(tab, ask, place)
    tab.key("/")
    assert field(tab) == ["condition", "reply lagged/", 0], field(tab)
    tab.key("Escape")
    assert tab.run("document.activeElement === document.body")
    tab.key("ArrowRight")
    check_place(tab, ask, 24)
