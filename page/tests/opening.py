"""Pages with a run in them, made by page/open, and what they show."""
import functools
import json
import os
import subprocess

import native

NEWEST = 16
OPEN = os.path.join(native.TOP, "page", "open")


def put(folder, name, data):
    path = os.path.join(folder, name)
    with open(path, "wb") as file:
        file.write(data)
    return path


def page_of(folder, name, data):
    """The page that page/open makes of a run in this folder."""
    made = subprocess.run([OPEN, put(folder, name, data)], stdout=subprocess.PIPE, check=True)
    return made.stdout.decode().rstrip("\n")


def load(tab, path, place=0):
    """Opens a page at a place. Without one in the address, a run is opened where its account says: `load_first`."""
    tab.load(path, place)
    settle(tab, place)


def load_first(tab, path):
    tab.load(path)
    settle(tab)


def settle(tab, place=None):
    """Waits until a run is shown, and not its beginning alone, with what is counted in it, and the state at its place."""
    shown = ("!document.getElementById('walk').hidden && !['walk', 'losses'].some(it => document.getElementById(it).hasAttribute('aria-busy'))"
             " && document.getElementById('state').dataset.place")
    tab.wait(f"{shown} !== undefined" if place is None else f"{shown} === '{place}'")


def settle_at_start(tab):
    """Waits until a run is shown where its account says, and goes to its start."""
    settle(tab)
    tab.key("Home")
    settle(tab, 0)


def standing(receiver, channel):
    """The page's text about a receiver."""
    if "seen" in receiver:
        mark, missed = receiver["mark"], channel["version"] - receiver["mark"] - 1
        return f"has {mark:,}, seen" if receiver["seen"] else f"has {mark:,} of {channel['version']:,}" + (f", missed {missed:,}" if missed else "")
    if receiver["unread"] == 0:
        return "up to date"
    lost = f", {receiver['lag']:,} overwritten" if receiver["lag"] else ""
    return f"{receiver['unread'] - receiver['lag']:,} to read{lost}"


def boxes_of(channel):
    """What the page shows of a channel's values: a watch's, or the newest 16 of a broadcast with the receivers that read each next."""
    if channel["kind"] == "watch":
        return [str(channel["value"])]
    values = channel["window"]
    newest = values[-NEWEST:]
    boxes = [f"+{len(values) - len(newest):,}"] if len(values) > len(newest) else []
    for left, value in zip(range(len(newest), 0, -1), newest):
        boxes.append(str(value) + "".join(f"↑ {it['handle']}" for it in channel["receivers"] if it["unread"] - it["lag"] == left))
    return boxes


def panel_of(state):
    """The rows that the page shows of a state: for each channel `open` or `closed`, its values, receivers, senders and weak senders."""
    rows = []
    for channel in state["channels"]:
        rows.append("closed" if channel["closed"] else "open")
        rows.append("values: " + " ".join(boxes_of(channel)))
        rows += [f"receiver {it['handle']}: {standing(it, channel)}" for it in channel["receivers"]]
        rows.append("senders: " + (", ".join(f"sender {it}" for it in channel["senders"]) or "none"))
        if "weak" in channel:
            rows.append("weak senders: " + ", ".join(f"weak sender {it}" for it in channel["weak"]))
    return rows


PANEL = """[...document.querySelectorAll('#state .channel')].sort((a, b) => a.dataset.channel - b.dataset.channel).flatMap(section => [section.querySelector('.tag').textContent,
    'values: ' + [...section.querySelectorAll('.values li, p .box')].map(box => box.textContent).join(' '),
    ...[...section.querySelectorAll('dl div')].map(row => (row.querySelector('[data-handle]') ?? row.children[0]).textContent + ': ' + row.children[1].textContent)])"""


def check_place(tab, ask, place):
    """Checks that the page is at this place, and shows what the program writes. `ask` returns what the program writes for commands."""
    settle(tab, place)
    step, state = ask(f"goto {place}\nstep\n"), ask(f"goto {place}\nstate json\n")
    entry, count = step.split("\n")[1], json.loads(state.split("\n")[-2])["len"]
    assert tab.text("place") == (f"call {place:,} of {count:,}" if place else "before call 1" if count else "no calls"), tab.text("place")
    sentence = tab.text("sentence")
    if place == 0:
        assert "the start" in sentence
    else:
        _, _, actor, channel, call = entry.split(" ", 4)
        wanted = f"a{actor} actor {actor} on channel {channel}: {call.replace(' = ', ' → ')}"
        assert sentence.startswith(wanted), f"{sentence!r}, not {wanted!r}"
    shown = tab.run(PANEL)
    assert shown == panel_of(json.loads(state.split("\n")[-2])), shown
    told = ask(f"goto {place}\nstep\nstate\n")
    tab.run("document.getElementById('told').open = true")
    tab.wait(f"document.getElementById('told-text').textContent === {json.dumps(told)}")


@functools.cache
def asker(journal):
    """A function that returns what the program writes for commands over a journal."""
    return lambda commands: native.debug(journal, commands.encode()).decode()
