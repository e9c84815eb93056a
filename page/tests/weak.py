"""Weak senders: what the page shows and draws of them."""
import os

import native
import opening
from opening import check_place
from shown import points_of

# Weak senders are made by a sender and by a weak one, upgraded while a sender is alive and when none is, and dropped before and after
# the channel is closed. Beside it is a watch, which has none.
SCRIPT = b"""broadcast 2
watch 5
actors 2
0 0 downgrade 0 as weak
1 0 clone-weak 2 as other
0 0 upgrade weak as strong
0 1 send 0 6
0 0 send strong 7
1 0 drop other
1 0 upgrade 3
0 0 drop 0
0 0 drop strong
1 0 upgrade 2 as late
0 0 recv 1
0 0 clone-weak weak
0 0 recv 1
0 0 drop weak
1 0 drop 5
"""
REPLIES = ["new 2", "new 3", "new 4", "stored", "sent 1", "dropped", "gone", "dropped", "dropped", "no-sender", "value 7", "new 5", "closed",
           "dropped", "dropped"]
KEPT = os.path.join(native.TOP, "tests", "program", "debug_weak_senders", "journal")


def walk(tab, ask, last):
    for place in range(last + 1):
        check_place(tab, ask, place)
        tab.key("ArrowRight")


def stop(tab, condition, found):
    """Searches from the start, and waits for this result."""
    tab.key("Home")
    tab.run("document.getElementById('condition').select()")
    tab.type(condition)
    tab.key("Enter")
    tab.wait(f"document.getElementById('found').textContent === '{found}'")
    tab.run("document.activeElement.blur()")


def weak_senders(tab, folder, journals):
    """Weak senders are among the state's handles, and a stop finds the upgrade that returned `no-sender`."""
    journal = native.record(SCRIPT)
    assert [line.split(b" = ")[1].decode() for line in journal.split(b"\n") if b" = " in line] == REPLIES, journal
    opening.load(tab, opening.page_of(folder, "weak.journal", journal))
    walk(tab, opening.asker(journal), len(REPLIES))
    stop(tab, "reply no-sender", "hit at call 10")
    check_place(tab, opening.asker(journal), 10)
    with open(KEPT, "rb") as file:
        kept = file.read()
    opening.load(tab, opening.page_of(folder, "kept.journal", kept))
    walk(tab, opening.asker(kept), 7)
    stop(tab, "reply no-sender", "hit at call 6")


def drawn(tab, folder, name, script):
    """How many pixels of the picture are of a sender's line, and the height of its rows."""
    opening.load(tab, opening.page_of(folder, name, native.record(script)))
    return points_of(tab, "--alive-sender"), tab.run("parseFloat(document.getElementById('space').style.height)")


def weak_rows(tab, folder, journals):
    """A weak sender has a row from the call that made it to its drop, as a sender has."""
    before = b"broadcast 2\n" + b"0 0 receiver-count 0\n" * 4
    after = b"0 0 receiver-count 0\n" * 4
    none, low = drawn(tab, folder, "none.journal", before + b"0 0 receiver-count 0\n" * 2 + after)
    sender, high = drawn(tab, folder, "sender.journal", before + b"0 0 clone-sender 0\n0 0 drop 2\n" + after)
    short, same = drawn(tab, folder, "short.journal", before + b"0 0 downgrade 0\n0 0 drop 2\n" + after)
    long, _ = drawn(tab, folder, "long.journal", before + b"0 0 downgrade 0\n0 0 receiver-count 0\n" + after)
    assert same == high > low, (low, high, same)
    assert none < short == sender, (none, short, sender)
    assert long > short, (short, long)
