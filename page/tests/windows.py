"""Windows: what a flight recorder would dump of a run from a call on, made by a model of its format, which the native program checks. What `why` and
the page say of a window is compared with what the whole run has, and both with each other."""
import json
import random

import failing
import native
import opening

LEAD_ACTOR = 63
# A flight recorder's clock begins here.
CLOCK = 67_108_864
# The dump is made at 03:12:45.120 UTC, and a call is made each 50 ms.
AT = 1_795_921_965_120
EACH = 50

ASKS = {"recv", "try-recv", "receiver-len"}
NOT_MADE = {"unknown", "gone", "wrong-kind", "too-many-handles"}


class Entry:
    """An entry of a journal."""
    def __init__(self, line):
        call, reply = line.split(" = ")
        stamp, actor, channel, self.word, handle, *self.args = call.split(" ")
        self.stamp, self.actor, self.channel, self.handle = int(stamp), int(actor), int(channel), int(handle)
        self.reply = reply


class Lead:
    """The lead of a channel: its calls, and by the journal's numbers of handles the real ones, or None for those that only the lead has."""
    def __init__(self, has_sender, has_receiver):
        self.calls = []
        self.real = [None, None]
        self.is_kept = [has_sender, has_receiver]
        self.receivers = 1
        self.lags = {}

    def stand(self, handle, real):
        self.real[handle] = real

    def make(self, word, real):
        self.calls.append(f"{word} 0 = new {len(self.real)}")
        self.real.append(real)
        self.receivers += word == "subscribe"
        return len(self.real) - 1

    def end(self, senders, weak):
        for real in senders[1:]:
            self.make("clone-sender", real)
        for real in weak:
            self.make("downgrade", real)
        if senders:
            self.stand(0, senders[0])
        for handle in (1, 0):
            if self.real[handle] is None:
                self.calls.append(f"drop {handle} = dropped")


def lead_of_broadcast(channel, asked):
    """By the state of a broadcast where the window begins. `asked` has the receivers that a call of the window asks."""
    lead = Lead(channel["senders"], channel["receivers"])
    oldest = channel["sent"] - len(channel["window"])
    positions = {it["handle"]: it["position"] if it["handle"] in asked else max(it["position"], oldest - 1) for it in channel["receivers"]}
    first = min([oldest, *positions.values()])
    lags = {it["handle"]: it["lag"] for it in channel["receivers"] if positions[it["handle"]] > it["position"]}
    waiting = sorted(positions, key=lambda handle: (positions[handle], handle))
    if waiting and positions[waiting[0]] == first:
        lead.stand(1, waiting.pop(0))
    for position in range(first, channel["sent"] + 1):
        while waiting and positions[waiting[0]] == position:
            lead.make("subscribe", waiting.pop(0))
        if position < channel["sent"]:
            value = channel["window"][position - oldest] if position >= oldest else 0
            lead.calls.append(f"send 0 {value} = sent {lead.receivers}")
    lead.end(channel["senders"], channel.get("weak", []))
    lead.lags = {lead.real.index(handle): lag for handle, lag in lags.items()}
    return lead


def lead_of_watch(channel):
    """By the state of a watch where the window begins."""
    lead = Lead(channel["senders"], channel["receivers"])
    value = channel["value"]
    marks = sorted({it["mark"] for it in channel["receivers"]} - {None})
    groups = [[it["handle"] for it in channel["receivers"] if it["mark"] == mark] for mark in marks]
    unmarked = [it["handle"] for it in channel["receivers"] if it["mark"] is None]
    if groups:
        lead.stand(1, groups[0].pop(0))
    for index, group in enumerate(groups):
        for handle in group:
            lead.make("subscribe", handle)
        if index + 1 < len(groups) or marks[index] < channel["version"]:
            lead.calls.append(f"send-replace 0 {value} = old {value}")
    for handle in unmarked:
        made = lead.make("subscribe", handle)
        lead.calls.append(f"mark-changed {made} = done")
    lead.end(channel["senders"], [])
    return lead


def window_of(journal, cut, names, trigger="call", reason="asked for", every=16):
    """The journal and the names of a dump of this run that keeps the calls behind `cut`."""
    lines = journal.decode().split("\n")
    entries = [Entry(line) for line in lines[lines.index("steps") + 1:lines.index("end")]]
    heads = lines[1:lines.index("steps")]
    state = json.loads(native.debug(journal, f"goto {cut}\nstate json\n".encode()).decode().split("\n")[1])["channels"]
    kept = [it for it in entries[cut:] if it.reply.split(" ")[0] not in NOT_MADE]
    leads, stamp = [], 0
    text = ["ttd-journal 2"]
    body = []
    for number, (head, channel) in enumerate(zip(heads, state)):
        asked = {it.handle for it in kept if it.channel == number and it.word in ASKS}
        lead = lead_of_watch(channel) if channel["kind"] == "watch" else lead_of_broadcast(channel, asked)
        leads.append(lead)
        text.append(f"watch {channel['value']}" if channel["kind"] == "watch" else head)
        for call in lead.calls:
            stamp += 1
            body.append(f"{stamp} {LEAD_ACTOR} {number} {call}")
    numbers = [{real: handle for handle, real in enumerate(lead.real) if real is not None} for lead in leads]
    nexts = [len(lead.real) for lead in leads]
    reals = [list(lead.real) for lead in leads]
    places, calls = [], {str(number): [None] * len(lead.calls) for number, lead in enumerate(leads)}
    for place, it in enumerate(entries[cut:], cut + 1):
        known = numbers[it.channel]
        if it.reply.split(" ")[0] in NOT_MADE or it.handle not in known:
            continue
        reply = it.reply
        if reply.startswith("new "):
            real = int(reply[4:])
            known[real] = nexts[it.channel]
            reals[it.channel].append(real)
            reply = f"new {nexts[it.channel]}"
            nexts[it.channel] += 1
        body.append(" ".join([str(CLOCK + place), str(it.actor), str(it.channel), it.word, str(known[it.handle]), *it.args, "=", reply]))
        places.append(place)
        calls[str(it.channel)].append(place % len(names["locations"]) if names.get("locations") else None)
    made = {
        "version": 4, **names, "calls": calls if names.get("locations") else {},
        "window": {
            "trigger": trigger, "reason": reason, "at": AT, "lead": stamp,
            "channels": {str(number): {
                "lead": len(lead.calls), "calls": sum(it.channel == number for it in entries[:cut]),
                "sent": channel.get("sent"), "handles": reals[number], "lags": lead.lags,
            } for number, (lead, channel) in enumerate(zip(leads, state))},
        },
        "times": [[CLOCK + place, AT - (len(entries) - place) * EACH, 1_000_000 + place * EACH * 1000] for place in [*places[::every], len(entries)]],
    }
    made["actors"] = {**names.get("actors", {}), str(LEAD_ACTOR): "before the window"}
    window = "\n".join([*text, "steps", *body, "end", ""]).encode()
    said = native.check(window)
    assert said == f"ok {len(body)}\n", (said, window.decode())
    return window, made, places


def random_window(chance, random_run):
    """A window of a random run from a random call on, with the run itself, its names, and where in it the calls of the window are."""
    while True:
        journal, names = random_run(chance)
        calls = int(native.check(journal).split(" ")[1])
        if calls > 3:
            break
    names = json.loads(names) if names else {}
    cut = chance.randrange(1, calls)
    # What names say by the handles and stamps of the whole run isn't what a dump has.
    for key in ("handles", "made", "panics", "returned", "waiting", "waited", "unrecorded", "test"):
        names.pop(key, None)
    window, made, places = window_of(journal, cut, names, reason=chance.choice(["asked\nfor", "`audit` lost 84 values of `prices`"]))
    ends(chance, made, places)
    return {"journal": journal, "names": names, "cut": cut, "window": window, "made": made, "places": places}


def ends(chance, made, places):
    """Adds how the run ended, and who waits."""
    since = [0, *(CLOCK + place for place in places)]
    if chance.random() < 0.3:
        made["panics"] = [{"text": "", "location": None, "actor": chance.randrange(4), "since": chance.choice(since)}]
    if chance.random() < 0.3:
        made["waiting"] = [{"actor": 1, "channel": 0, "handle": 1, "call": "recv", "since": chance.choice(since), "location": None}]


def losses_in_window(whole, *, cut, made, places, **_):
    """The losses of a whole run that didn't end before a call, by the places of the window and the real numbers of receivers."""
    back = dict(zip(places, range(made["window"]["lead"] + 1, 10 ** 9)))
    those = [it for it in whole["losses"] if it["to"] is None or it["to"] > cut]
    return sorted(((it["channel"], it["receiver"], "before" if it["from"] <= cut else back[it["from"]], back.get(it["to"], "open"), it["lost"]) for it in those), key=str)


def losses_told(account, made):
    window = made["window"]
    real = lambda it: window["channels"][str(it["channel"])]["handles"][it["receiver"]]
    return sorted(((it["channel"], real(it), "before" if it["from"] <= window["lead"] else it["from"], it["to"] or "open", it["lost"]) for it in account["losses"]), key=str)


def window_as_why_says(tab, folder, journals):
    """Over windows of random runs, `why --json` has the losses that the whole run has, with as many values, and the page's answer is the account of
    `why`. The run opens behind its lead, and its first lines say why the dump was made."""
    from accounts import random_run
    failing.said()
    chance = random.Random(70)
    kinds = set()
    for number in range(40):
        found = random_window(chance, random_run)
        opening.put(folder, f"whole{number}.names", json.dumps(found["names"]).encode())
        opening.put(folder, f"window{number}.names", json.dumps(found["made"]).encode())
        page = opening.page_of(folder, f"window{number}.journal", found["window"])
        whole, account = (json.loads(failing.command("why", path, "--json")) for path in (
            opening.put(folder, f"whole{number}.journal", found["journal"]), f"{folder}/window{number}.journal"))
        assert losses_told(account, found["made"]) == losses_in_window(whole, **found), (number, found["cut"])
        window = found["made"]["window"]
        assert {key: account["window"][key] for key in window} == json.loads(json.dumps(window))
        opening.load_first(tab, page)
        lead = window["lead"]
        is_found = account["facts"] or account["waiting"] or account["failure"] is not None
        opening.settle(tab, account["look"] if is_found else lead + 1)
        assert account["look"] > lead and account["calls"] == len(found["places"])
        failing.check_answer_text(tab, account)
        assert failing.shown(account["window"]["text"]) in tab.run("document.getElementById('facts').textContent").replace("↵ ", "\\n")
        kinds |= {fact["kind"] for fact in account["facts"]} | {"lag" for it in window["channels"].values() if it["lags"]}
        kinds |= {"time" for fact in account["facts"] for it in fact["places"] if "time" in it}
        kinds |= {"before" for fact in account["facts"] if fact["text"][1].startswith("  before the window")}
    assert kinds >= {"loss", "unlearned", "closing", "lag", "time", "before"}, kinds


def night():
    """A run in which `audit` stops reading 30 sends before the end, and another receiver never reads. The last 20 calls are those of the window: of three
    connections that are gone before it, only the numbers are left."""
    lines = ["broadcast 8", "watch 5", "actors 3"]
    for handle in (2, 3, 4):
        lines += ["0 0 subscribe 0", f"0 0 drop {handle}"]
    lines += ["0 0 subscribe 0", "0 1 subscribe 0"]
    for value in range(100, 200):
        lines.append(f"0 0 send 0 {value}")
        if value < 170:
            lines.append("1 0 try-recv 5")
        if value % 10 == 0:
            lines.append(f"2 1 send 0 {value}")
            lines.append("2 1 update 1")
    lines += ["1 0 try-recv 5", "1 0 try-recv 5"]
    return native.record(("\n".join(lines) + "\n").encode())


NIGHT = {
    "actors": {"0": "ticker", "1": "night-audit", "2": "admin"}, "channels": {"0": "prices", "1": "config"},
    "values": {"0": {str(value): f"{value} EUR" for value in range(100, 200)}}, "locations": [["src/bus.rs", line, 9] for line in range(10, 20)],
}

SLIDE = """(to => {
    const slider = document.getElementById('slider');
    slider.valueAsNumber = to;
    for (const name of ['input', 'change']) slider.dispatchEvent(new Event(name));
})"""

# Whether the left end of the picture is grey.
GREY = """(() => {
    const canvas = document.getElementById('picture'), scale = canvas.width / canvas.getBoundingClientRect().width;
    const [red, green, blue, alpha] = canvas.getContext('2d').getImageData(Math.round(272 * scale), canvas.height - 4, 1, 1).data;
    return alpha > 60 && Math.abs(red - green) < 20 && Math.abs(green - blue) < 20;
})()"""


def window_is_drawn(tab, folder, journals):
    """A window opens at the call that was told, with the real numbers of receivers and what was really lost. Before its first call is one grey column,
    at which walking back ends, and the slider leads into the lead, where nobody loses anything. The picture of the whole has no more of it."""
    journal = night()
    calls = int(native.check(journal).split(" ")[1])
    window, made, _ = window_of(journal, calls - 20, NIGHT, "lag", "`night-audit` lost 22 values of `prices`")
    lead = made["window"]["lead"]
    opening.put(folder, "night.names", json.dumps(made).encode())
    page = opening.page_of(folder, "night.journal", window)
    opening.load_first(tab, page)
    opening.settle(tab, lead + 19)
    assert tab.text("place") == f"call {lead + 19} of {lead + 20}", tab.text("place")
    assert "lagged 22" in tab.text("sentence") and " UTC, " in tab.text("sentence"), tab.text("sentence")
    panel = tab.run(opening.PANEL)
    assert any(row.startswith("receiver 1: 8 to read, 92 overwritten") for row in panel) and any(row.startswith("receiver 5: ") for row in panel), panel
    assert "receiver 5 lost 22 values" in tab.text("state"), tab.text("state")[:300]
    assert "the overwriting began before the window" in tab.text("state"), tab.text("state")[:300]
    tab.picture(f"{native.PICTURES}/window.png")
    tab.key("Home")
    opening.settle(tab, lead)
    assert tab.text("place") == f"before call {lead + 1}" and "the window begins" in tab.text("sentence")
    tab.key("ArrowLeft")
    opening.settle(tab, lead)
    assert tab.run(GREY)
    tab.picture(f"{native.PICTURES}/window_start.png")
    tab.key("ArrowRight")
    opening.settle(tab, lead + 1)
    tab.run(f"{SLIDE}({lead - 3})")
    opening.settle(tab, lead - 3)
    assert tab.text("place") == f"{lead - 3} of {lead} that lead to it" and tab.text("sentence").startswith("leads to the window: "), tab.text("sentence")
    assert "lost" not in tab.text("state"), tab.text("state")[:200]
    tab.picture(f"{native.PICTURES}/window_lead.png")
    tab.key("Home")
    tab.key("0")
    opening.settle(tab, lead)
    assert tab.run("document.getElementById('picture').getAttribute('aria-label')") == f"The start and calls {lead + 1} to {lead + 20}, drawn."
    tab.key("t")
    rows = tab.run("[...document.querySelectorAll('#table-rows tr[data-receiver]')].map(row => row.innerText.replace(/\\s+/g, ' '))")
    assert len(rows) == 4 and any("receiver 1 0 0 92 92 8 92" in row for row in rows), rows
    tab.key("t")


def window_by_names(tab, folder, journals):
    """A journal that is opened without its names is a run with a lead. With them it is a window."""
    journal = night()
    window, made, _ = window_of(journal, int(native.check(journal).split(" ")[1]) - 20, NIGHT)
    tab.load(native.PAGE)
    tab.wait("window.ttd")
    tab.drop(opening.put(folder, "late.journal", window))
    opening.settle(tab)
    assert "64 actors" in tab.text("facts"), tab.text("facts")
    tab.drop(opening.put(folder, "late.names", json.dumps(made).encode()))
    tab.wait("document.getElementById('facts').textContent.includes('dump of')")
    opening.settle(tab, made["window"]["lead"] + 19)
    assert "3 actors" in tab.text("facts") and "20 calls" in tab.text("facts"), tab.text("facts")


TESTS = [window_as_why_says, window_is_drawn, window_by_names]
