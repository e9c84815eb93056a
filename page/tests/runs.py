"""Runs that the tests open: scripts of random calls, which are the same each time."""
import os
import random

import native

PRELUDE = "broadcast 8\nbroadcast 64\nwatch 1\nactors 4\n"
WATCH = 2


class Handles:
    """The handles that are alive on a channel, as far as writing a script needs them."""

    def __init__(self):
        self.senders, self.receivers, self.made = [0], [1], 2

    def make(self, kind):
        kind.append(self.made)
        self.made += 1


def drop(chance, handles):
    handle = chance.choice(handles)
    handles.remove(handle)
    return f"drop {handle}"


def broadcast_call(chance, handles, value):
    """A call on a broadcast: mostly sends and receives. The last receiver is slow."""
    senders, receivers, turn = handles.senders, handles.receivers, chance.random()
    if turn < 0.30:
        return f"send {chance.choice(senders)} {value}"
    if turn < 0.93:
        quick = receivers[:max(1, len(receivers) - 1)] if chance.random() < 0.85 else receivers
        return f"try-recv {chance.choice(quick)}"
    if turn < 0.95 and len(receivers) < 5:
        handles.make(receivers)
        return f"subscribe {chance.choice(senders)}"
    if turn < 0.96 and len(senders) < 3:
        made_by = chance.choice(senders)
        handles.make(senders)
        return f"clone-sender {made_by}"
    if turn < 0.975 and len(receivers) > 1:
        return drop(chance, receivers)
    if turn < 0.98 and len(senders) > 1:
        return drop(chance, senders)
    return f"receiver-len {chance.choice(receivers)}"


def watch_call(chance, handles, value):
    senders, receivers, turn = handles.senders, handles.receivers, chance.random()
    if turn < 0.3:
        return f"send {chance.choice(senders)} {value}"
    if turn < 0.7:
        return f"update {chance.choice(receivers)}"
    if turn < 0.9:
        return f"has-changed {chance.choice(receivers)}"
    if turn < 0.94 and len(receivers) < 4:
        made_by = chance.choice(receivers)
        handles.make(receivers)
        return f"clone-receiver {made_by}"
    if turn < 0.97 and len(receivers) > 1:
        return drop(chance, receivers)
    return f"borrow {chance.choice(receivers)}"


def script(calls):
    chance = random.Random(calls)
    channels = [Handles(), Handles(), Handles()]
    lines = []
    for value in range(calls):
        channel = chance.choices([0, 1, WATCH], [5, 3, 2])[0]
        call = (watch_call if channel == WATCH else broadcast_call)(chance, channels[channel], value)
        lines.append(f"{chance.randrange(4)} {channel} {call}\n")
    return (PRELUDE + "".join(lines)).encode()


def large(calls):
    """A script with very many calls, which is quickly made: two broadcasts, each with a sender and two receivers, of which one is slow. Each handle
    has an actor of its own on its channel."""
    chance = random.Random(calls)
    turns = chance.choices(["send 0 ", "try-recv 1", "try-recv 2"], [5, 6, 2], k=calls - 2)
    channels = chance.choices([0, 1], [2, 1], k=calls - 2)
    steps = (f"{turn[-1].strip() or 0} {channel} {turn}{i if turn[0] == 's' else ''}\n" for i, (channel, turn) in enumerate(zip(channels, turns)))
    return ("broadcast 8\nbroadcast 64\nactors 4\n0 0 subscribe 0\n0 1 subscribe 0\n" + "".join(steps)).encode()


def example_file(name):
    with open(os.path.join(native.TOP, "examples", name), "rb") as file:
        return file.read()


def example():
    return example_file("price_feed.ttd")


def journals():
    """The journals of the three runs, by their number of calls."""
    return {63: native.record(example()), 10_000: native.record(script(10_000)), 100_000: native.record(script(100_000))}
