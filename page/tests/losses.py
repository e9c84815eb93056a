"""No loss stays hidden: what was lost is in the strip and in the picture at every zoom, comes first above them, and is named where it happens."""
import json

import bidi
import found
import native
import opening
import real_runs
from hands import GUTTER, MARGIN, column_x
from rows import boxes, drawn, page_of

# The long run: handle 2 is made at 50,001. Of its 49 sends at 50,002, 50,004 and so on, 4 stay, so that the fifth is the first that overwrites.
SILENT = found.Loss(0, 2, 50_010, 45, "dropped", 50_100)

# The red pixels of each column of a canvas, as how many columns from the left have some.
RED = """(name => {
    const canvas = document.getElementById(name), { data, width, height } = canvas.getContext('2d').getImageData(0, 0, canvas.width, canvas.height);
    const columns = [];
    for (let x = 0; x < width; x++) {
        for (let y = 0; y < height; y++) {
            const at = 4 * (y * width + x);
            if (data[at] > 150 && data[at + 1] < 100 && data[at + 2] < 100 && data[at + 3] > 100) { columns.push(x); break; }
        }
    }
    return columns;
})"""


def red_columns(tab, name):
    """The columns of a drawing that have red in them, right of the names."""
    return [x for x in tab.run(f"{RED}({json.dumps(name)})") if x >= GUTTER]


def silent_loss(tab, folder, journals):
    """A receiver that loses 45 values of 100,000 calls and is dropped untold is red in strip and picture, and L reaches it."""
    path, ask = page_of(folder, "long", real_runs.long())
    opening.load(tab, path)
    tab.key("0")
    tab.wait(f"document.getElementById('picture').getAttribute('aria-label').includes('to {real_runs.LONG_MADE}')")
    width = tab.run("document.getElementById('picture').width")
    middle = GUTTER + 50_055 / 99_999 * (width - GUTTER - MARGIN)
    for name in ("strip", "picture"):
        red = red_columns(tab, name)
        assert red and any(abs(x - middle) < 4 for x in red), (name, red[:9], middle)
        # In the picture, the head says in red how much was lost.
        assert name == "picture" or all(abs(x - middle) < 9 for x in red), (name, red, middle)
    assert "45 untold" in [text for text, _, _, _ in drawn(tab)]
    tab.key("Home")
    for place in (SILENT.start, SILENT.to):
        tab.key("l")
        check_silent(tab, ask, place)
    tab.key("l")
    tab.wait("document.getElementById('found').textContent === 'no loss begins or ends after it'")
    tab.key("L", shift=True)
    check_silent(tab, ask, SILENT.start)


def check_silent(tab, ask, place):
    opening.settle(tab, place)
    assert tab.text("place") == f"call {place:,} of {real_runs.LONG_MADE:,}"
    assert ask(f"goto {place}\nstep\n").split("\n")[1].split(" ", 4)[4].replace(" = ", " → ").split(" → ")[1] in tab.text("sentence")
    label = {SILENT.start: "1 of 45 values so far not told yet", SILENT.to: "45 values dropped untold"}[place]
    assert f"late joiner · receiver 2 lost {label}" in tab.text("state"), tab.text("state")[:300]


def stops_of_losses(tab, folder, journals):
    """L goes to each place where the program's states say that a lag begins or ends, of any receiver, and Shift L back."""
    path, ask = page_of(folder, "bus", real_runs.bus())
    stops = found.stops_of(found.losses_of(ask, real_runs.BUS_MADE))
    assert len(stops) > 40, stops
    opening.load(tab, path)
    for keys, wanted in (("l", stops), ("L", stops[-2:-9:-1])):
        for place in wanted:
            tab.key(keys, shift=keys == "L")
            tab.wait(f"document.getElementById('slider').valueAsNumber === {place}", 5)


def lines_of(ask, last):
    return [line for line in ask("list\n").split("\n") if line.startswith("#")]


def totals_of(ask, last, losses):
    """What the table has to say of each receiver of a broadcast, by the program's list and states: what it received, the sums and the greatest of
    its losses, and what it can still read."""
    received = {}
    for line in lines_of(ask, last):
        _, _, _, channel, word, handle, *rest = line.split(" ")
        if "= value" in line and word.endswith("recv"):
            received[int(channel), int(handle)] = received.get((int(channel), int(handle)), 0) + 1
    every, rest = set(), {}
    for state in found.each_state(ask, last):
        every |= set(found.lags(state))
        rest = {(channel, it["handle"]): it["unread"] - it["lag"] for channel, of in enumerate(state["channels"]) for it in of["receivers"] if "lag" in it}
    totals = {}
    for key in every:
        lost = [it for it in losses if (it.channel, it.receiver) == key]
        told = sum(it.lost for it in lost if it.end == "told")
        all_of_it = sum(it.lost for it in lost)
        totals[key] = [received.get(key, 0), told, all_of_it, max([it.lost for it in lost], default=0), rest.get(key), all_of_it - told]
    return totals


# The table's rows, by channel and receiver, with the numbers in them.
TABLE = """Object.fromEntries([...document.querySelectorAll('#table-rows tr[data-receiver]')].map(row =>
    [row.dataset.receiver, [...row.querySelectorAll('td[class]')].map(cell => cell.textContent === '–' ? null : Number(cell.textContent.replaceAll(',', '')))]))"""


def table_of_receivers(tab, folder, journals):
    """The line and the table have the sums that follow from the program's list and states, and a row goes to its receiver's worst loss."""
    path, ask = page_of(folder, "bus", real_runs.bus())
    losses = found.losses_of(ask, real_runs.BUS_MADE)
    totals = totals_of(ask, real_runs.BUS_MADE, losses)
    opening.load(tab, path)
    tab.key("t")
    shown = {tuple(map(int, key.split(" "))): row for key, row in tab.run(TABLE).items()}
    assert {key: row for key, row in shown.items() if key[0] == 0} == totals, (shown, totals)
    lost, losers = sum(row[2] for row in totals.values()), sum(row[2] > 0 for row in totals.values())
    line = tab.run("document.querySelector('#loss-line span').textContent")
    assert line == f"{losers} receivers lost {lost} values", line
    assert list(tab.run(TABLE)) == sorted(tab.run(TABLE), key=lambda key: (-(shown[tuple(map(int, key.split(' ')))][2] or 0), shown[tuple(map(int, key.split(' ')))][2] is None, key))
    tab.click("[data-sort=received]")
    counts = [row[0] for row in tab.run(TABLE).values() if row[0] is not None]
    assert counts == sorted(counts, reverse=True), counts
    tab.click("[data-sort=received]")
    counts = [row[0] for row in tab.run(TABLE).values() if row[0] is not None]
    assert counts == sorted(counts), counts
    worst = max((it for it in losses if it.receiver == 6), key=lambda it: it.lost)
    tab.run("document.querySelector('#table-rows [data-receiver=\"0 6\"]').scrollIntoView()")
    tab.click("#table-rows [data-receiver='0 6']")
    opening.settle(tab, worst.to)
    assert tab.run("document.querySelector('#table-rows [aria-current]').dataset.receiver") == "0 6"


def last_call_of(ask, channel, handle):
    calls = [line.split(" ") for line in lines_of(ask, 0)]
    return max(int(it[0][1:]) for it in calls if it[3] == str(channel) and it[5] == str(handle) and it[4] != "drop")


def row_without_loss(tab, folder, journals):
    """The row of a receiver that lost nothing goes to its last call."""
    path, ask = page_of(folder, "bus", real_runs.bus())
    opening.load(tab, path)
    tab.key("t")
    tab.run("document.querySelector('#table-rows [data-receiver=\"1 3\"]').scrollIntoView()")
    tab.click("#table-rows [data-receiver='1 3']")
    opening.settle(tab, last_call_of(ask, 1, 3))


def whole_table(tab):
    """All rows of the table. Those that aren't in sight are made when it is scrolled there."""
    rows = {}
    for top in range(0, tab.run("document.getElementById('table-box').scrollHeight"), 100):
        tab.run(f"(box => {{ box.scrollTop = {top}; box.dispatchEvent(new Event('scroll')); }})(document.getElementById('table-box'))")
        rows |= tab.run(TABLE)
    return {tuple(map(int, key.split(" "))): row for key, row in rows.items()}


def table_of_pool(tab, folder, journals):
    """In a pool of 20 channels, the table has the sums that follow from the program's list and states, and so have strip and heads by channel."""
    path, ask = page_of(folder, "pool", real_runs.pool())
    losses = found.losses_of(ask, real_runs.POOL_MADE)
    opening.load(tab, path)
    tab.key("t")
    assert whole_table(tab) == totals_of(ask, real_runs.POOL_MADE, losses)
    sums = {f"jobs.{channel:02}": [sum(it.lost for it in losses if it.channel == channel and it.end in ends)
                                   for ends in (("told", "dropped", "open"), ("dropped", "open"))] for channel in range(real_runs.POOL_CHANNELS)}
    assert beside(tab, "strip", sums, "−") == {name: [f"−{lost:,}"] if lost else [] for name, (lost, _) in sums.items()}
    heads = beside(tab, "picture", sums, "lost ")
    assert heads, "no head is in sight"
    for name, texts in heads.items():
        lost, untold = sums[name]
        assert texts == ([f"lost {lost:,}" + (f", {untold:,} untold" if untold else "")] if lost else []), (name, texts, sums[name])


def beside(tab, canvas, names, beginning):
    """The drawn texts that begin so, beside each of these names that is drawn."""
    texts = drawn(tab, canvas)
    return {name: [text for text, _, at, _ in texts if at == y and text.startswith(beginning)] for name, _, y, _ in texts if name in names}


def table_folds(tab, folder, journals):
    """The table is folded at first, since the answer is open. Its line and T unfold it, and on a narrow screen it has a tab."""
    path, _ = page_of(folder, "bus", real_runs.bus())
    seen = "document.getElementById('table-box').checkVisibility()"
    opening.load(tab, path)
    assert not tab.run(seen)
    tab.key("t")
    assert tab.run(seen)
    (_, top, _, bottom), = boxes(tab, "#table-box")
    assert bottom - top <= 172
    tab.key("t")
    assert not tab.run(seen)
    tab.click("#loss-line")
    assert tab.run(seen)
    opening.load(tab, opening.page_of(folder, "quiet.journal", native.record(b"broadcast 4\n" + b"0 0 send 0 1\n0 0 recv 1\n" * 20)))
    assert not tab.run(seen)
    assert tab.run("document.querySelector('#loss-line span').textContent") == "no value was lost: 1 receiver"
    tab.resize(390, 844)
    opening.load(tab, path)
    assert not tab.run(seen)
    tab.click("#tabs [data-tab=receivers]")
    assert tab.run(seen) and not tab.run("document.getElementById('left').checkVisibility()")
    tab.run("document.querySelector('#table-rows [data-receiver=\"0 6\"] td').click()")
    assert tab.run("document.getElementById('left').checkVisibility()") and not tab.run(seen)
    tab.resize(1440, 920)


# Where the picture stands, and what the line says, when the state at the first place is shown.
FIRST = """new MutationObserver((_, observer) => {
    window.first = [document.getElementById('picture-box').getBoundingClientRect().top, document.getElementById('loss-line').textContent];
    observer.disconnect();
}).observe(document, { subtree: true, attributes: true, attributeFilter: ['data-place'] })"""


def room_for_the_table(tab, folder, journals):
    """The table's numbers come after the first picture, and move nothing."""
    path, _ = page_of(folder, "bus", real_runs.bus())
    tab.call("Page.addScriptToEvaluateOnNewDocument", source=FIRST)
    opening.load(tab, path)
    top, line = tab.run("first")
    assert line == "what was lost is being counted" and "lost" in tab.text("loss-line"), (line, tab.text("loss-line"))
    assert top == tab.run("document.getElementById('picture-box').getBoundingClientRect().top"), top


# The sender's last call is call 3. Receiver 3 is created after it.
CLOSING = (b"broadcast 4\n0 0 subscribe 0\n0 0 send 0 5\n0 0 drop 0\n0 0 resubscribe 1\n0 0 try-recv 1\n0 0 try-recv 1\n0 0 drop 1\n0 0 try-recv 2\n"
           b"0 0 try-recv 2\n0 0 try-recv 2\n")

ENDS = """Object.fromEntries([...document.querySelectorAll('#table-rows tr[data-receiver]')].map(row =>
    [row.dataset.receiver, [row.cells[2].textContent, row.cells[6].textContent, row.cells[8].textContent]]))"""


def closed_for_receivers(tab, folder, journals):
    """The table says what each receiver received, what it can still read, and where it was first told that its channel is closed; the head of the channel's
    band says that it is closed only from there on."""
    opening.load(tab, opening.page_of(folder, "closing.journal", native.record(CLOSING)))
    assert tab.run(ENDS) == {"0 1": ["1", "–", "dropped at call 7"], "0 2": ["1", "0", "found closed at call 9"], "0 3": ["0", "0", "created after the close"]}, tab.run(ENDS)
    (at,) = [x for text, x, _, _ in drawn(tab) if text == "closed"]
    before, closing = [column_x(tab, "#picture-box", place, 11)[0] for place in (2, 3)]
    assert before < at < closing, (before, at, closing)


CARD = "[...document.querySelectorAll('.lost .box')].map(it => it.textContent)"


def lost_by_name(tab, folder, journals):
    """Where a receiver lags, and where it is told, sentence and card have the texts of the values that were overwritten, and no others."""
    journal, names = real_runs.bus()
    path, ask = page_of(folder, "bus", (journal, names))
    texts = json.loads(names)["values"]["0"]
    losses = found.losses_of(ask, real_runs.BUS_MADE)
    sends = [line.split(" ") for line in lines_of(ask, real_runs.BUS_MADE) if " 0 send 0 " in line and line.split(" ")[3] == "0"]
    loss = max(losses, key=lambda it: (it.end == "told", it.lost))
    overwriting = [int(send[0][1:]) for send in sends].index(loss.start)
    lost = [texts[send[6]] for send in sends[overwriting - 16:overwriting - 16 + loss.lost]]
    opening.load(tab, path, loss.to)
    tab.run("document.querySelector('[data-loss=all]')?.click()")
    assert tab.run(CARD) == lost, (tab.run(CARD), lost)
    assert f": lost {lost[0]}, {lost[1]} and {loss.lost - 2} more" in tab.text("sentence"), tab.text("sentence")
    opening.load(tab, path, loss.start)
    assert f"lost 1 of {loss.lost} values so far" in tab.text("state"), tab.text("state")[:300]
    assert f"overwrites {lost[0]}, not read by " in tab.text("sentence"), tab.text("sentence")


def few(values):
    return ", ".join(values[:2]) + (f" and {len(values) - 2} more" if len(values) > 2 else "")


def words_of_loss(entry, values, now, loss):
    """What the sentence of this call says of a loss that has `now` of its values by then, and ends there or later."""
    if entry[3] != "0":
        return ""
    if loss.to == int(entry[0][1:]) and entry[5] == str(loss.receiver):
        return f": lost {few(values)}" if loss.end == "told" else f" and was never told that it lost {loss.lost}: {few(values)}"
    return f" overwrites {values[now - 1]}, not read by " if entry[4] == "send" else f" has lost {few(values[:now])}"


def slide(tab, place):
    """Goes to a place as the slider does while it is dragged. A browser limits how often the address may change."""
    tab.run(f"(it => {{ it.value = {place}; it.dispatchEvent(new Event('input')); }})(document.getElementById('slider'))")
    opening.settle(tab, place)


def lost_everywhere(tab, folder, journals):
    """At each place where the program's states have a lag, or had one before the call, the card and the sentence of a call on the channel say what was
    lost by then, by its texts; at all others there is no such card."""
    journal, names = real_runs.bus()
    path, ask = page_of(folder, "bus", (journal, names))
    entries, states = [line.split(" ") for line in lines_of(ask, 0)], found.states(ask, real_runs.BUS_MADE)
    sends = [json.loads(names)["values"]["0"][it[6]] for it in entries if it[3:6] == ["0", "send", "0"]]
    losses, seen = found.losses_of(ask, real_runs.BUS_MADE), set()
    opening.load(tab, path)
    for place in sorted({*range(1, real_runs.BUS_MADE + 1, 5), *found.stops_of(losses)}):
        slide(tab, place)
        here = {str(it.receiver): it for it in losses if it.start <= place and (it.end == "open" or place <= it.to)}
        handle, sentence = tab.run("document.querySelector('.loss h3 [data-handle]')?.dataset.handle ?? null"), tab.text("sentence")
        loss = here.get(handle)
        assert (loss is None) == (handle is None) == (not here), (place, handle, here)
        if loss is None:
            assert "lost" not in sentence and "overwrites" not in sentence, (place, sentence)
            continue
        receivers = states[min(place, loss.to - 1) if loss.end != "open" else place]["channels"][0]["receivers"]
        (position, now), = [(it["position"], it["lag"]) for it in receivers if str(it["handle"]) == handle]
        values = sends[position:position + loss.lost]
        assert tab.run(CARD) == values[:6], (place, tab.run(CARD), values)
        count = f" lost {now} of {loss.lost} values so far " if now < loss.lost else f" lost {loss.lost} value{'s' if now > 1 else ''} "
        assert count in tab.run("document.querySelector('.loss h3').textContent"), (place, count)
        said = words_of_loss(entries[place - 1], values, now, loss)
        assert said in sentence and (said or "lost" not in sentence), (place, sentence, said)
        seen.add(said[:4])
    assert len(seen) >= 5, seen


# What the card says of the reader: where it last received, and the handles of others that lost some of the same values.
READER = """(it => [it.textContent.match(/last received at call ([\\d,]+)/)?.[1] ?? null, [...it.querySelectorAll('[data-handle]')].map(other => other.dataset.handle)])(
    document.querySelector('.loss dl > div:nth-child(3) dd'))"""


def readers_of_losses(tab, folder, journals):
    """The card says where the receiver last received before the loss, and which others lost some of the same values."""
    path, ask = page_of(folder, "bus", real_runs.bus())
    entries, states = [line.split(" ") for line in lines_of(ask, 0)], found.states(ask, real_runs.BUS_MADE)
    losses = found.losses_of(ask, real_runs.BUS_MADE)
    first = lambda it: next(receiver["position"] for receiver in states[it.start]["channels"][0]["receivers"] if receiver["handle"] == it.receiver)
    lost = {(it.start, it.receiver): set(range(first(it), first(it) + it.lost)) for it in losses}
    shared = set()
    opening.load(tab, path)
    for place in sorted({it.start for it in losses}):
        slide(tab, place)
        handle = int(tab.run("document.querySelector('.loss h3 [data-handle]').dataset.handle"))
        received = [it[0][1:] for it in entries[:place] if it[3] == "0" and it[5] == str(handle) and it[7] == "value"]
        others = {str(it.receiver) for it in losses if it.receiver != handle and lost[it.start, it.receiver] & lost[place, handle]}
        where, named = tab.run(READER)
        assert where == (received or [None])[-1] and set(named) <= others and len(named) == min(4, len(others)), (place, handle, where, named, others)
        shared.add(len(others))
    assert len(shared) > 1, shared


def cause_and_end(tab, folder, journals):
    """C and E, and the card's buttons, lead to the send that overwrote first and to the end, and N turns through those that lag there."""
    path, ask = page_of(folder, "bus", real_runs.bus())
    losses = found.losses_of(ask, real_runs.BUS_MADE)
    loss = max((it for it in losses if it.end == "dropped"), key=lambda it: it.lost)
    opening.load(tab, path, loss.to)
    for how, place in (("c", loss.start), ("e", loss.to)):
        tab.key(how)
        opening.settle(tab, place)
    for name, place in ((f".loss [data-place='{loss.start}']", loss.start), (f".loss dl > div:last-child [data-place='{loss.to}']", loss.to)):
        tab.click(name)
        opening.settle(tab, place)
    many = next(place for place in range(loss.start, 600) if len([it for it in losses if it.start < place < (it.to or 999)]) >= 3)
    opening.load(tab, path, many)
    heads = set()
    for _ in range(4):
        heads.add(tab.run("document.querySelector('.loss h3 [data-handle]').dataset.handle"))
        tab.key("n")
        opening.settle(tab, many)
    assert heads >= {str(it.receiver) for it in losses if it.start < many < (it.to or 999)}, heads


def whole_calls(tab, folder, journals):
    """The call of a mark is shown in whole under the pointer, by a key, and where a finger taps."""
    journal, names = real_runs.bus()
    path, ask = page_of(folder, "bus", (journal, names))
    texts = json.loads(names)["values"]["0"]
    send = next(line.split(" ") for line in lines_of(ask, 0) if line.startswith("#3") and " 0 send 0 " in line and line.split(" ")[3] == "0" and int(line[1:].split(" ")[0]) > 300)
    place, text = int(send[0][1:]), texts[send[6]]
    opening.load(tab, path, place)
    first, last = [int(it) for it in tab.run("new URLSearchParams(location.hash.slice(1)).get('view') ?? ''").split("-")] if "view" in tab.run("location.hash") else (place - 32, place + 32)
    tab.wait("location.hash.includes('view')")
    first, last = [int(it) for it in tab.run("new URLSearchParams(location.hash.slice(1)).get('view')").split("-")]
    x, top = column_x(tab, "#picture-box", place - first, last - first + 1)
    (y,) = [y for name, _, y, _ in drawn(tab) if name == "publisher · sender 0"]
    tab.mouse("mouseMoved", x, top + y)
    tab.wait("!document.getElementById('tip').hidden")
    assert text in tab.text("tip") and f"send 0 {send[6]} → sent" in tab.text("tip") and "publisher on event bus" in tab.text("tip"), tab.text("tip")
    tab.mouse("mouseMoved", x, top + y + 300)
    tab.wait("document.getElementById('tip').hidden || !document.getElementById('tip').textContent.includes('send 0')")
    tab.key("i")
    assert text in tab.text("whole-call") and tab.run("document.getElementById('whole-call').checkVisibility()")
    tab.key("i")
    assert not tab.run("document.getElementById('whole-call').checkVisibility()")
    touch = {"x": x, "y": top + y}
    tab.call("Input.dispatchTouchEvent", type="touchStart", touchPoints=[touch])
    tab.call("Input.dispatchTouchEvent", type="touchEnd", touchPoints=[])
    tab.wait("!document.getElementById('tip').hidden")
    assert text in tab.text("tip")


def to_read(tab, folder, journals):
    """`Unread` counts overwritten values in the console, so the page has another word for what can be read, and texts stand in the list of calls."""
    journal, names = real_runs.bus()
    path, _ = page_of(folder, "bus", (journal, names))
    opening.load(tab, path, 400)
    assert "unread" not in tab.run(bidi.EVERYTHING).lower()
    assert "to read" in tab.text("state") and "to read" in tab.text("legend")
    text = json.loads(names)["values"]["0"]
    assert any(it in tab.text("calls") for it in text.values()), tab.text("calls")


# The heights of the boxes with values in the panel, and whether one of them is cut.
LINES = """(boxes => [boxes.map(it => it.parentElement.getBoundingClientRect().height), boxes.some(it => it.scrollWidth > it.clientWidth)])(
    [...document.querySelectorAll('#state .box')])"""


def texts_of_values(tab, folder, journals):
    """Sends have the text of their value beside them, and each box of the panel is one line, also where its text is longer."""
    path, ask = page_of(folder, "bus", real_runs.bus())
    place = next(int(line[1:].split(" ")[0]) for line in lines_of(ask, 0) if line.startswith("#4") and " 0 send 0 " in line and len(line.split(" ")[0]) == 4)
    opening.load(tab, path, place)
    tab.key("+")
    tab.key("+")
    opening.settle(tab, place)
    sends = [text for text, _, _, _ in drawn(tab) if text.startswith("OrderPlaced {")]
    assert sends, drawn(tab)
    heights, is_cut = tab.run(LINES)
    assert len(heights) > 8 and max(heights) < 24 and is_cut, (heights, is_cut)


def struck_out(tab, folder, journals):
    """Above the retained values are those that a receiver lost, struck out: the last three with their texts, and how many were before. Elsewhere there
    are none."""
    journal, names = real_runs.bus()
    path, ask = page_of(folder, "bus", (journal, names))
    texts = json.loads(names)["values"]["0"]
    sends = [line.split(" ")[6] for line in ask("list\n").split("\n") if " 0 send 0 " in line and " = sent " in line]
    opening.load(tab, path)
    seen = set()
    for place in (100, 200, 300, 400, 500, 640):
        tab.run(f"void (location.hash = '#call={place}')")
        opening.settle(tab, place)
        channel = json.loads(ask(f"goto {place}\nstate json\n").split("\n")[-2])["channels"][0]
        oldest = channel["sent"] - len(channel["window"])
        first = min([it["position"] for it in channel["receivers"] if it["lag"]], default=oldest)
        gone = [texts[value] for value in sends[first:oldest]]
        wanted = ([f"+{len(gone) - 3}"] if len(gone) > 3 else []) + gone[-3:]
        shown = tab.run("[...document.querySelectorAll('#state [data-channel=\"0\"] .overwritten .box')].map(it => it.textContent)")
        struck = tab.run("[...document.querySelectorAll('#state .overwritten del')].map(it => getComputedStyle(it).textDecorationLine)")
        assert shown == wanted and struck == ["line-through"] * len(gone[-3:]), (place, shown, wanted, struck)
        seen.add(min(len(gone), 4))
    assert {0, 4} <= seen, seen


# How high a colour stands in each column of a canvas.
HEIGHTS = """((name, variable) => {
    const canvas = document.getElementById(name), { data, width, height } = canvas.getContext('2d').getImageData(0, 0, canvas.width, canvas.height);
    const [red, green, blue] = getComputedStyle(document.documentElement).getPropertyValue(variable).match(/[0-9a-f]{2}/g).map(part => parseInt(part, 16));
    return Array.from({ length: width }, (_, x) => {
        let count = 0;
        for (let y = 0; y < height; y++) {
            const at = 4 * (y * width + x);
            if (Math.abs(data[at] - red) + Math.abs(data[at + 1] - green) + Math.abs(data[at + 2] - blue) < 12) count++;
        }
        return count;
    });
})"""


def greatest_from_far(tab, folder, journals):
    """From far, the greatest height of each stretch of places is drawn: a queue that is full at one place of 60,000 is as high as one that stays full,
    and a change of a watch that is seen four places later is amber."""
    pair, full = b"0 0 send 0 1\n0 0 try-recv 1\n", b"0 0 send 0 1\n" * 16 + b"0 0 try-recv 1\n" * 16
    change = b"0 1 send 0 2\n0 0 receiver-len 1\n0 0 receiver-len 1\n0 0 receiver-len 1\n0 1 update 1\n"
    script = b"broadcast 16\nwatch 1\n" + pair * 15_005 + full + pair * 5 + change + pair * 15_000
    journal = native.record(script)
    last = 15_005 * 2 + 32 + 10 + 5 + 30_000
    opening.load(tab, opening.page_of(folder, "spike.journal", journal))
    tab.key("0")
    tab.wait(f"document.getElementById('picture').getAttribute('aria-label').includes('to {last}')")
    for name, most in (("strip", 16), ("picture", 12)):
        tab.wait(f"Math.max(...{HEIGHTS}('{name}', '--unread')) >= {most}")
        heights = tab.run(f"{HEIGHTS}('{name}', '--unread')")[GUTTER:]
        at = round(30_026 / (last + 1) * (len(heights) - MARGIN))
        assert max(heights[at - 3:at + 4]) >= most, (name, heights[at - 9:at + 10])
        assert max(heights[:at - 4] + heights[at + 5:]) <= 3, (name, max(heights[:at - 4]), max(heights[at + 5:]))
        amber = tab.run(f"{HEIGHTS}('{name}', '--unseen')")[GUTTER:]
        assert max(amber[at - 3:at + 4]) >= 7, (name, amber[at - 9:at + 10])
        assert max(amber[:at - 4] + amber[at + 5:]) == 0, name


def held_are_last(tab, folder, journals):
    """A receiver that lost values and never received one comes after another that lost less: in the answer, in the table, and with its channel."""
    calls = [f"0 0 send 0 {value}" for value in range(1, 5)]
    calls += ["0 1 send 0 1", "0 1 try-recv 1", "0 1 send 0 2", "0 1 send 0 3", "0 1 try-recv 1"]
    script = "broadcast 1\nbroadcast 1\n" + "".join(f"{call}\n" for call in calls)
    opening.load(tab, opening.page_of(folder, "held.journal", native.record(script.encode())), 0)
    line = tab.run("document.querySelector('#loss-line span').textContent")
    assert line == "2 receivers lost 4 values", line
    heads = tab.run("[...document.querySelectorAll('#answer .fact h3')].map(it => it.textContent)")
    assert heads == ["receiver 1 lost 1 of 3 values of channel 1 (capacity 1)", "receiver 1 lost 3 of 4 values of channel 0 (capacity 1)"], heads
    tab.key("t")
    assert list(tab.run(TABLE)) == ["1 1", "0 1"], tab.run(TABLE)
    assert tab.run("[...document.querySelectorAll('#state .channel')].map(it => it.dataset.channel)") == ["1", "0"]
    # By hand the table is sorted by numbers alone.
    tab.click("[data-sort=lost]")
    tab.click("[data-sort=lost]")
    assert list(tab.run(TABLE)) == ["0 1", "1 1"], tab.run(TABLE)


TESTS = [held_are_last, struck_out, greatest_from_far, silent_loss, stops_of_losses, table_of_receivers, table_of_pool, row_without_loss, table_folds, room_for_the_table,
         closed_for_receivers, lost_by_name, lost_everywhere, readers_of_losses, cause_and_end, whole_calls, to_read, texts_of_values]
