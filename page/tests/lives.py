"""The handles of a run: what the page finds of them for its first picture is what the debugger lists of them, in every run that a test opens."""
import json

import found
import native
import opening
import owners
import real_runs
import weak
from rows import SIZES, boxes, page_of

# Compares both when the debugger's list comes. Whose a handle is, called with it or made it. What was found at each opening of the page is kept.
WATCH = """(() => {
    const { postMessage } = Worker.prototype, requests = new Map();
    const belongs = (user, { maker, callers }) => user === null ? maker === null && callers.length === 0
        : user === maker || callers.some(({ actor }) => actor === user);
    const read = ({ handles, callers }) => {
        const listed = [], none = number => number === 2 ** 32 - 1;
        for (let at = 0, start = 0; at < handles.length; start = handles[at + 6], at += 7) {
            const [channel, handle, kind, from, maker, to, end] = handles.subarray(at, at + 7);
            const pairs = callers.subarray(start, end);
            (listed[channel] ??= [])[handle] = { kind: ['sender', 'receiver', 'weak sender'][kind], from, maker: none(maker) ? null : maker,
                to: none(to) ? opened.at(-1).lastPlace + 1 : to,
                callers: Array.from({ length: pairs.length / 2 }, (_, i) => ({ actor: pairs[2 * i], calls: pairs[2 * i + 1] })) };
        }
        return listed;
    };
    const compare = listed => {
        const { lives } = opened.at(-1);
        window.lives = { opened, found: lives, listed };
        const same = (life, it, handle) => life.handle === handle && ['kind', 'from', 'to'].every(key => life[key] === it[key]) && belongs(life.user, it);
        lives.forEach((those, channel) => {
            const wrong = those.findIndex((life, handle) => !listed[channel][handle] || !same(life, listed[channel][handle], handle));
            if (wrong < 0 && those.length === listed[channel].length) return;
            throw new Error(`handle ${wrong} of channel ${channel}: ${JSON.stringify(those[wrong])} found, ${JSON.stringify(listed[channel][wrong])} listed`);
        });
    };
    const opened = [];
    Worker.prototype.postMessage = function (message, ...more) {
        if (requests.size === 0) this.addEventListener('message', ({ data: { number, answer } }) => {
            const request = requests.get(number);
            if (request === 'open' && answer?.lives) opened.push({ lives: structuredClone(answer.lives), lastPlace: answer.lastPlace });
            if (request === 'found' && answer) compare(read(answer));
        });
        requests.set(message.number, message.request);
        return postMessage.call(this, message, ...more);
    };
})()"""

# The request for what is found waits until `window.goOn` is called.
HELD = """(() => {
    const { postMessage } = Worker.prototype;
    Worker.prototype.postMessage = function (...words) {
        if (words[0].request === 'found') window.goOn = () => postMessage.apply(this, words);
        else postMessage.apply(this, words);
    };
})()"""

# A receiver is made by actor 0, used by 1 and 2, and dropped by 0. The sender that the channel opened with is never dropped.
HANDED_ON = b"""broadcast 4
actors 3
0 0 subscribe 0
1 0 try-recv 2
0 0 send 0 9
2 0 try-recv 2
1 0 try-recv 2
0 0 drop 2
"""

KINDS = (("senders", "sender"), ("weak", "weak sender"), ("receivers", "receiver"))


def alive(state):
    """The kind of each live handle, by channel and number."""
    number = lambda it: it["handle"] if isinstance(it, dict) else it
    return {(channel, number(it)): kind for channel, of in enumerate(state["channels"]) for key, kind in KINDS for it in of.get(key, [])}


def lives_of(ask, last):
    """Each handle, by channel and number: its kind, from which place to which it is in the program's states, and who called with it, in their order, by the
    program's list. What made it is the call that leads to its first place."""
    lives = {}
    for place, state in enumerate(found.states(ask, last)):
        now = alive(state)
        for key, kind in now.items():
            lives.setdefault(key, {"kind": kind, "from": place, "to": last + 1, "callers": []})
        for key, life in lives.items():
            if key not in now:
                life["to"] = min(life["to"], place)
    actors = [None]
    for line in ask("list\n").split("\n"):
        if not line.startswith("#"):
            continue
        number, _, actor, channel, _, handle = line.split(" ")[:6]
        actors.append(int(actor))
        life = lives.get((int(channel), int(handle)))
        if life and life["from"] < int(number[1:]):
            life["callers"].append(int(actor))
    return {key: {**life, "maker": actors[life["from"]]} for key, life in lives.items()}


def as_listed(life):
    """What the page reads of the debugger's list."""
    callers = [{"actor": actor, "calls": life["callers"].count(actor)} for actor in sorted(set(life["callers"]))]
    return {"kind": life["kind"], "from": life["from"], "maker": life["maker"], "to": life["to"], "callers": callers}


def listed_lives(tab, folder, journals):
    """The list has what follows from the program's states and entries: kind, first and last place, maker, and the calls of each actor."""
    runs = {"bus": real_runs.bus()[0], "weak": native.record(weak.SCRIPT), "owners": native.record(owners.SCRIPT), "example": journals[63]}
    for name, journal in runs.items():
        ask = opening.asker(journal)
        last = json.loads(ask("end\nstate json\n").split("\n")[-2])["len"]
        opening.load(tab, opening.page_of(folder, f"{name}.journal", journal))
        listed, wanted = tab.run("lives.listed"), lives_of(ask, last)
        shown = {(channel, handle): it for channel, those in enumerate(listed) for handle, it in enumerate(those)}
        assert shown == {key: as_listed(life) for key, life in wanted.items()}, (name, shown, wanted)
        assert len({life["kind"] for life in wanted.values()}) >= 2, name


def last_users(tab, folder, journals):
    """A row is named after the actor that called last with its handle, other than by dropping it, and else after its maker."""
    for name, journal, last in (("bus", real_runs.bus()[0], real_runs.BUS_MADE), ("handed", native.record(HANDED_ON), 6)):
        opening.load(tab, opening.page_of(folder, f"{name}.journal", journal))
        users = tab.run("lives.found.map(those => those.map(({ user }) => user))")
        for (channel, handle), life in lives_of(opening.asker(journal), last).items():
            callers = life["callers"][:-1] if life["to"] <= last else life["callers"]
            wanted = callers[-1] if callers else life["maker"] if life["maker"] is not None else (life["callers"] or [None])[-1]
            assert users[channel][handle] == wanted, (name, channel, handle, users[channel][handle], life)


def findings_move_nothing(tab, folder, journals):
    """No part moves when what is found in the run comes. The picture stays as it is, and so does what is told of a place where nobody lags."""
    tab.call("Page.addScriptToEvaluateOnNewDocument", source=HELD)
    path, _ = page_of(folder, "bus", real_runs.bus())
    parts = ["#strip-box", ".bar", "#said", "#axis", "#pane", "aside", "#losses"]
    shown = ("[...['picture', 'cursor'].map(name => document.getElementById(name).toDataURL()), "
             "...['sentence', 'calls', 'state'].map(name => document.getElementById(name).textContent)]")
    for width, height in SIZES:
        tab.resize(width, height)
        tab.load(path, 6)
        tab.wait("window.goOn && document.getElementById('state').dataset.place === '6'")
        tab.run("ttd.ask('').then(() => dispatchEvent(new Event('resize')))")
        before = tab.run(shown), boxes(tab, *parts)
        assert tab.text("loss-line") == "what was lost is being counted", tab.text("loss-line")
        tab.run("void goOn()")
        opening.settle(tab, 6)
        assert "receivers lost" in tab.text("loss-line") and (tab.run(shown), boxes(tab, *parts)) == before, width
    tab.resize(1440, 920)


def owners_in_whole(tab, folder, journals):
    """A call in whole says where and by whom its handle was made, where it was dropped, and who called how often with it."""
    names = json.dumps({"actors": {"0": "main", "1": "first", "2": "second"}}).encode()
    path, _ = page_of(folder, "handed", (native.record(HANDED_ON), names))
    opening.load(tab, path, 3)
    tab.key("i")
    assert tab.text("whole-call").endswith("main · sender 0created with its channel; 2 calls by main"), tab.text("whole-call")
    tab.key("ArrowRight")
    opening.settle(tab, 4)
    wanted = "first · receiver 2created at call 1 by main, dropped at call 6; 2 calls by first, 1 call by main, 1 call by second"
    assert tab.text("whole-call").endswith(wanted), tab.text("whole-call")


TESTS = [listed_lives, last_users, findings_move_nothing, owners_in_whole]
