"""The picture of the cause of a loss."""
import failing
import opening
from hands import column_x, places_in_view
from rows import drawn

WORDS = {"sent", "overwrote it", "last receive", "told", "dropped"}

# How much of a column of the layer of the place is covered, at these heights.
COVERED = """((x, heights) => heights.map(y => document.getElementById('cursor').getContext('2d').getImageData(x, y, 1, 1).data[3]))"""

# By a failing test: the channel, and the steps of its first loss, as its source has them.
STORIES = {
    "no_price_is_missing": [(1, "sent"), (3, "overwrote it"), (7, "told")],
    "the_log_is_read": [(4, "sent"), (5, "overwrote it"), (3, "last receive"), (7, "dropped")],
    "the_orders_are_whole": [(6, "sent"), (18, "overwrote it"), (19, "told")],
}


def words_drawn(tab):
    return [it for it in drawn(tab, "cursor") if it[0] in WORDS]


def cause_as_a_picture(tab, folder, journals):
    """P draws the steps of the loss at their places, and dims the rows that take no part, until it is pressed again."""
    for name, steps in STORIES.items():
        page, place = failing.addresses()[name]
        opening.load(tab, page, place)
        assert not words_drawn(tab)
        tab.key("p")
        opening.settle(tab, place)
        words = words_drawn(tab)
        assert [word for word, *_ in words] == [word for _, word in steps], (name, words)
        first, last = places_in_view(tab)
        left = tab.box("#picture-box")[0]
        for (word, x, _, width), (step, _) in zip(words, steps):
            middle = column_x(tab, "#picture-box", step - first, last - first + 1)[0] - left
            assert abs(x + width / 2 - middle) < 2 or x + width > 1_000, (name, word, x + width / 2, middle)
        rows = {text: y for text, x, y, _ in drawn(tab) if " · " in text and x < 100}
        dimmed = [y for text, y in rows.items() if text.startswith("held") or text.startswith("idle")]
        assert all(it > 150 for it in tab.run(f"{COVERED}(400, {[round(y) for y in dimmed]})")), (name, rows)
        assert dimmed or name == "no_price_is_missing", rows
        tab.click(".loss [data-loss=story]")
        assert not words_drawn(tab)


TESTS = [cause_as_a_picture]
