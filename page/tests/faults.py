"""What the page once did wrong in small: fields, words that outlived their place, what overlapped, and what was printed and saved."""
import json

import first_look
import native
import opening
import real_runs
from bidi import LETTERS
from rows import DRAWN, drawn, page_of
from search import HIT, seek


def field_is_left_empty(tab, folder, journals):
    """Escape empties the filter, shows all rows again, and leaves the field and nothing in the address."""
    path, _ = page_of(folder, "pool", real_runs.pool())
    opening.load(tab, path, 100)
    rows = tab.run("document.getElementById('space').offsetHeight")
    tab.key("f")
    tab.type("worker-03")
    tab.wait("location.hash.endsWith('&filter=worker-03')")
    assert tab.run("document.getElementById('space').offsetHeight") < rows
    tab.key("Escape")
    tab.wait("!location.hash.includes('filter')")
    state = tab.run("[document.getElementById('filter').value, document.getElementById('space').offsetHeight, document.activeElement === document.body]")
    assert state == ["", rows, True], state


def test_is_no_hit(tab, folder, journals):
    """A part of the test's own name finds the calls that have it otherwise, and not all that the test makes. The whole name finds those."""
    script = "broadcast 4\nbroadcast 4\nactors 2\n" + "".join(f"0 {number % 2} send 0 {number}\n" for number in range(70)) + "1 1 try-recv 1\n"
    names = {"actors": {"0": "billing_is_told", "1": "desk"}, "channels": {"0": "orders", "1": "shipping"}, "values": {"0": {"40": "billing 40"}},
             "test": {"package": "shop", "target": "bus", "name": "billing_is_told", "thread": "billing_is_told"}}
    opening.put(folder, "own.names", json.dumps(names).encode())
    opening.load(tab, opening.page_of(folder, "own.journal", native.record(script.encode())))
    for text, count in (("billing", 1), ("billing_is_told", 70), ("ship", 36)):
        tab.key("Home")
        opening.settle(tab, 0)
        seek(tab, text)
        tab.wait(f"{HIT} === 'hit 1 of {count}'")
        tab.run("document.activeElement.blur()")


def told_when_it_is(tab, folder, journals):
    """That a loss was told is said from the telling on. That one begins or ends is said where it does, and no further."""
    opening.load(tab, opening.page_of(folder, "told.journal", journals[63]))
    pill = "document.querySelector('.loss .pill').textContent"
    tab.key("l")
    opening.settle(tab, 19)
    assert (tab.run(pill), tab.text("found")) == ("not told yet", "a loss begins")
    tab.key("e")
    opening.settle(tab, 23)
    assert (tab.run(pill), tab.text("found")) == ("told", "")
    tab.key("L", shift=True)
    opening.settle(tab, 19)
    tab.key("ArrowRight")
    opening.settle(tab, 20)
    assert (tab.run(pill), tab.text("found")) == ("not told yet", "")


def head_of_its_kind(tab, folder, journals):
    """Above the names stands what is beside those of the channel on top: of a watch other words than of a broadcast."""
    for head, call, wanted in (("broadcast 4", "send 0 7", "overwritten, to read"), ("watch 1", "send 0 7", "version seen, of the newest")):
        script = f"{head}\nactors 1\n0 0 {call}\n".encode()
        opening.load(tab, opening.page_of(folder, f"{head.split()[0]}.journal", native.record(script)))
        heads = [text for text, x, *_ in drawn(tab, "axis") if x < 240 and not text.isdigit()]
        assert heads == [wanted], heads


def labels_apart(tab, folder, journals):
    """The labels of a cause lie over none of each other, also where its steps are in rows beside each other and on few points."""
    others = "1 1 send 0 7\n" * 60
    script = f"broadcast 1\nbroadcast 1\nactors 2\n0 0 clone-sender 0\n{others}0 0 send 2 5\n0 0 send 0 6\n0 0 try-recv 1\n{others}"
    opening.load(tab, opening.page_of(folder, "steps.journal", native.record(script.encode())), 63)
    tab.key("p")
    for key in ("0", "-", "+", "+"):
        tab.key(key)
        tab.wait(f"{DRAWN}('cursor').some(([text]) => text === 'overwrote it')")
        labels = [it for it in drawn(tab, "cursor") if it[0] in ("sent", "overwrote it", "told")]
        assert len(labels) == 3, labels
        for i, (word, x, y, width) in enumerate(labels):
            over = [it for it in labels[i + 1:] if abs(it[2] - y) < 12 and x < it[1] + it[3] and it[1] < x + width]
            assert not over, (key, word, over)


def right_to_left_in_the_account(tab, folder, journals):
    """In the account, names from right to left leave what is before and behind them where it is, also a number behind a name."""
    hebrew = "\u05d0\u05d1\u05d2"
    names = {"actors": {"0": hebrew}, "channels": {"0": hebrew}, "handles": {"0": {"1": f"{hebrew} 7"}}}
    opening.put(folder, "hebrew.names", json.dumps(names).encode())
    script = b"broadcast 2\nactors 1\n0 0 send 0 1\n0 0 send 0 2\n0 0 send 0 3\n0 0 try-recv 1\n"
    opening.load(tab, opening.page_of(folder, "hebrew.journal", native.record(script)), 3)
    # In a heading, the number is of the name.
    for line, of_name in (("#answer .fact h3", "7"), ("#answer .fact .step", "")):
        letters, places, before = tab.run(f"{LETTERS}({json.dumps(line)})"), [], " "
        for bottom, left, letter in letters:
            if letter in hebrew and before in hebrew:
                places[-1] = min(places[-1], (bottom // 4, left))
            elif letter.isalnum() and letter not in of_name:
                places.append((bottom // 4, left))
            before = letter
        assert any(letter in hebrew for *_, letter in letters) and places == sorted(places), (line, letters)


def printed_as_drawn(tab, folder, journals):
    """On paper, which is narrower than the window, drawings keep their shape, and the marker of the place ends with the picture."""
    page, place = first_look.addresses()["every_event_reaches_the_audit_log"]
    opening.load(tab, page, place)
    tab.call("Emulation.setEmulatedMedia", media="print")
    tab.run("document.body.style.width = '720px'")
    shapes = tab.run("""['strip', 'axis', 'picture', 'cursor'].map(name => {
        const { width, height, clientWidth, clientHeight } = Object.assign(document.getElementById(name), {});
        return [name, Math.round(100 * width / height) / 100, Math.round(100 * clientWidth / clientHeight) / 100];
    })""")
    assert all(abs(drawn_ - shown) <= 0.05 * drawn_ for _, drawn_, shown in shapes), shapes
    picture, cursor, calls = tab.run("['picture', 'cursor', 'calls'].map(name => document.getElementById(name).getBoundingClientRect().toJSON())")
    box, rows = tab.run("[document.getElementById('picture-box').getBoundingClientRect().toJSON(), parseFloat(document.getElementById('space').style.height)]")
    assert abs(box["height"] - rows * box["width"] / tab.run("document.getElementById('picture').width")) < 2, (box, rows)
    assert abs(cursor["bottom"] - picture["bottom"]) < 2 and calls["top"] >= box["bottom"], (picture, cursor, calls)
    tab.call("Emulation.setEmulatedMedia", media="")


def saved_without_a_blank(tab, folder, journals):
    """A saved picture of few rows ends with them: below come how the test failed, what is told first, the card and the legend."""
    page, place = first_look.addresses()["no_job_is_lost_untold"]
    opening.load(tab, page, place)
    tab.run("void (URL.createObjectURL = blob => { blob.text().then(text => { window.saved = text; }); return '#'; })")
    tab.click("#save-svg")
    tab.wait("window.saved")
    svg = tab.run("window.saved")
    heights = tab.run("['strip', 'axis'].map(name => document.getElementById(name).height).concat(document.getElementById('space').style.height)")
    rows, drawn_ = int(heights[2].removesuffix("px")), sum(heights[:2])
    notes = tab.run("document.querySelectorAll('#state .loss h3, #state .loss dl > div, #legend li').length")
    # The head has the test and its place, what failed, left and right; then the fact.
    assert f'height="{26 + drawn_ + rows + 18 * (notes + 5) + 10}"' in svg, (svg[:200], drawn_, rows, notes)
    for text in ("no_job_is_lost_untold failed at tests/first_look.rs", "left: [1, 2]", "log lost 3 of 7 values of jobs", "lost: overwritten before it was read", "cause"):
        assert text in svg, text


TESTS = [field_is_left_empty, test_is_no_hit, told_when_it_is, head_of_its_kind, labels_apart, right_to_left_in_the_account, printed_as_drawn, saved_without_a_blank]
