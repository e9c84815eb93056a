"""The search: what it finds, in which order, how many, and where that is on the strip; and the life of a value."""
import json
import random

import failing
import found
import opening
import real_runs
from hands import found_around
from losses import lines_of
from rows import page_of

HIT = "document.getElementById('found').textContent"
# How many columns of the strip have the colour of a hit.
MARKS = """(() => {
    const canvas = document.getElementById('strip-cursor'), { data, width, height } = canvas.getContext('2d').getImageData(0, 0, canvas.width, canvas.height);
    const [red, green, blue] = getComputedStyle(document.documentElement).getPropertyValue('--hit').match(/[0-9a-f]{2}/g).map(part => parseInt(part, 16));
    return Array.from({ length: width }, (_, x) => x).filter(x => {
        const at = 4 * ((height - 1) * width + x);
        return data[at] === red && data[at + 1] === green && data[at + 2] === blue;
    }).length;
})()"""


def model(ask, names, text):
    """The places of the calls that have a text: in the names of their actor and channel, in the text of their value, or in call or reply."""
    places = []
    for line in lines_of(ask, 0):
        call, _, reply = line.partition(" = ")
        number, _, actor, channel, *words = call[1:].split(" ")
        values = names["values"].get(channel, {})
        value = reply.split(" ")[1] if reply.startswith("value ") else words[2] if len(words) > 2 else None
        texts = [names["actors"].get(actor, f"actor {actor}"), names["channels"].get(channel, f"channel {channel}"), values.get(value, ""),
                 names.get("handles", {}).get(channel, {}).get(words[1], ""), " ".join(words), reply]
        if any(text.lower() in it.lower() for it in texts):
            places.append(int(number))
    return places


def seek(tab, text, back=False):
    tab.run("document.getElementById('condition').select()")
    tab.type(text)
    tab.key("Enter", back)


def texts_of_calls(tab, folder, journals):
    """Enter and Shift-Enter walk through the calls that have a text, in the texts of values, in names, calls and replies, whatever the case of its
    letters, and on from the other end. They are counted, and marked on the strip."""
    journal, names = real_runs.bus()
    named = json.loads(names)
    named["handles"] = {"0": {"1": "first of all"}}
    path, ask = page_of(folder, "bus", (journal, json.dumps(named).encode()))
    opening.load(tab, path)
    chance, counts = random.Random(7), set()
    values = list(named["values"]["0"].values())
    wanted = ["nightly-EXPORT", "flags", "customer-0012", "lagged", "first of all", "update 2", "nobody at all"]
    for text in wanted + [it[start:start + 9] for it in chance.sample(values, 6) for start in [chance.randrange(len(it) - 9)]]:
        if text.strip() != text:
            continue
        tab.run("void (document.getElementById('condition').value = '', document.getElementById('condition').dispatchEvent(new Event('input')))")
        tab.key("Escape")
        places, here = model(ask, named, text), tab.run("document.getElementById('slider').valueAsNumber")
        for back in (False, False, True):
            seek(tab, text, back)
            after = [it for it in places if (it < here if back else it > here)]
            if not places:
                tab.wait(f"{HIT} === {json.dumps(f'no call has {text}')}")
                continue
            around = "" if after else ", from the end again" if back else ", from the start again"
            here = (after or places)[-1 if back else 0]
            tab.wait(f"{HIT} === 'hit {places.index(here) + 1} of {len(places)}{around}'")
            opening.settle(tab, here)
        marks = tab.run(MARKS)
        assert (marks > 0) == bool(places) and marks <= 2 * len(places), (text, marks, len(places))
        counts.add(len(places))
    assert len(counts) > 4 and 0 in counts and max(counts) > 20, counts


def places_in_sources(tab, folder, journals):
    """A file with a line finds the calls that stand there."""
    page, _ = failing.addresses()["no_price_is_missing"]
    opening.load(tab, page)
    line = failing.line_of("a price is sent")
    for place in (1, 2, 3):
        seek(tab, line)
        tab.wait(f"{HIT} === 'hit {place} of 5'")
        opening.settle(tab, place)


def conditions_by_names(tab, folder, journals):
    """The console's conditions may have names in place of numbers, and go where those with the numbers go."""
    path, ask = page_of(folder, "bus", real_runs.bus())
    opening.load(tab, path)
    place = 0
    for named, condition in (("lagging event bus nightly-export", "lagging 0 7"), ("actor webhook", "actor 4"), ("unseen feature flags metrics", "unseen 1 3"),
                             ("queue event bus 4", "queue 0 4"), ("closed feature flags", "closed 1"), ("channel event bus", "channel 0")):
        answer, around = found_around(ask, place, "rforward", condition)
        seek(tab, named)
        place = int(answer.split(" ")[1])
        tab.wait(f"{HIT} === {json.dumps(f'hit at call {place}{around}')}")
        opening.settle(tab, place)


def hits_of(states, entries, condition):
    """The places at which a condition holds and didn't hold before, by the program's states; of a condition on calls, those whose entries meet it."""
    word, *numbers = condition.split(" ")
    if word in ("actor", "channel", "reply"):
        return [place for place, it in enumerate(entries, 1) if it[word] == (numbers[0] if word == "reply" else int(numbers[0]))]
    channel = int(numbers[0])
    receiver = lambda state: next((it for it in state["channels"][channel]["receivers"] if it["handle"] == int(numbers[1])), None)
    holds = {
        "lagging": lambda state: (receiver(state) or {"lag": 0})["lag"] > 0, "unseen": lambda state: not (receiver(state) or {"seen": True})["seen"],
        "closed": lambda state: state["channels"][channel]["closed"], "queue": lambda state: len(state["channels"][channel]["window"]) >= int(numbers[1]),
    }[word]
    return [place for place in range(1, len(states)) if holds(states[place]) and not holds(states[place - 1])]


def conditions_are_counted(tab, folder, journals):
    """All hits of a condition are counted and marked on the strip, and which of them is gone to."""
    path, ask = page_of(folder, "bus", real_runs.bus())
    states, entries = found.states(ask, real_runs.BUS_MADE), []
    for line in lines_of(ask, 0):
        call, _, reply = line.partition(" = ")
        _, _, actor, channel, *_ = call.split(" ")
        entries.append({"actor": int(actor), "channel": int(channel), "reply": reply.split(" ")[0]})
    opening.load(tab, path)
    counts = set()
    for condition in ("actor 4", "reply lagged", "reply value", "lagging 0 7", "lagging 0 2", "unseen 1 3", "closed 0", "channel 1", "reply gone"):
        tab.run("void (document.getElementById('condition').value = '', document.getElementById('condition').dispatchEvent(new Event('input')))")
        tab.key("Escape")
        tab.key("Home")
        opening.settle(tab, 0)
        places = hits_of(states, entries, condition)
        counts.add(len(places))
        for number in range(min(2, len(places))):
            seek(tab, condition)
            count = "1 hit" if len(places) == 1 else f"{len(places)} hits"
            tab.wait(f"document.getElementById('hit-count').textContent === '{number + 1} of {count}'")
            opening.settle(tab, places[number])
        if places:
            marks = tab.run(MARKS)
            assert 0 < marks <= 2 * len(places), (condition, marks, len(places))
        else:
            seek(tab, condition)
            tab.wait(f"{HIT}.startsWith('no hit')")
            assert tab.run(MARKS) == 0 and tab.text("hit-count") == "", condition
    assert len(counts) > 4 and max(counts) > 100, counts


LIFE = """[...document.querySelectorAll('.life dl > div')].map(part => [...part.querySelectorAll('li')].map(row =>
    [Number(row.querySelector('[data-place]')?.dataset.place ?? -1), Number(row.querySelector('[data-handle]')?.dataset.handle ?? -1)]))"""


def lives_of_values(ask, losses):
    """By the number of each value of channel 0, where it was sent, received and overwritten, and in which losses it was lost, by the program's states."""
    lives, states = [], found.states(ask, real_runs.BUS_MADE)
    before = {1: 0}
    for line in lines_of(ask, 0):
        words = line.split(" ")
        place, channel = int(words[0][1:]), words[3]
        state = states[place]["channels"][0]
        if channel == "0" and " = sent " in line:
            lives.append({"sent": place, "received": [], "lost": [], "gone": None})
        gone = state["sent"] - len(state["window"])
        for life in lives[:gone]:
            life["gone"] = life["gone"] or place
        if channel == "0" and " = value " in line:
            lives[before[int(words[5])]]["received"].append((place, int(words[5])))
        before = {it["handle"]: it["position"] for it in state["receivers"]}
    for loss in losses:
        first = next(it["position"] for it in states[loss.start]["channels"][0]["receivers"] if it["handle"] == loss.receiver)
        for life in lives[first:first + loss.lost]:
            life["lost"].append((loss.to if loss.end == "told" else -1, loss.receiver))
    return lives


def life_of_a_value(tab, folder, journals):
    """A click on a value shows who sent, received and lost it, and which send overwrote it, as it follows from the program's states. It stays while the
    place changes, until it is closed."""
    path, ask = page_of(folder, "bus", real_runs.bus())
    lives = lives_of_values(ask, found.losses_of(ask, real_runs.BUS_MADE))
    opening.load(tab, path)
    seen = set()
    for place in (90, 200, 330, 460, 600):
        tab.run(f"void (location.hash = '#call={place}')")
        opening.settle(tab, place)
        for number in tab.run("[...document.querySelectorAll('#state .values [data-value^=\"0 \"]')].map(it => Number(it.dataset.value.split(' ')[1]))")[::5]:
            tab.run(f"document.querySelector('#state [data-value=\"0 {number}\"]').click()")
            tab.wait("document.querySelector('.life') !== null")
            life = lives[number]
            sent, received, lost, gone = [[tuple(row) for row in part] for part in tab.run(LIFE)]
            assert sent == [(life["sent"], -1)] and received == life["received"], (number, sent, received, life)
            assert sorted(lost) == sorted(life["lost"]) and gone == ([(life["gone"], -1)] if life["gone"] else []), (number, lost, gone, life)
            seen.add((bool(received), bool(lost), bool(gone)))
    assert len(seen) > 2, seen
    tab.key("ArrowRight")
    opening.settle(tab, 601)
    assert tab.run("document.querySelector('.life') !== null")
    tab.click(".life [data-value='']")
    tab.wait("document.querySelector('.life') === null")


TESTS = [texts_of_calls, places_in_sources, conditions_by_names, conditions_are_counted, life_of_a_value]
