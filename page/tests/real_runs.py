"""Runs as programs have them, which are the same each time: an event bus, a pool of workers, and a long run with a silent loss.

Each is a script and its names. No call of them would wait, since receives are `try-recv`.
"""
import functools
import json
import random

import native

BUS_ACTORS = ["main", "metrics", "audit-log", "search-index", "webhook", "ui", "nightly-export", "publisher"]
BUS_PACE = {5: 0.9, 1: 0.9, 2: 0.5, 3: 0.3, 4: 0.24, 6: 0.16}
POOL_CHANNELS, POOL_ACTORS, POOL_CALLS = 20, 40, 5_000
WIDE_CHANNELS, WIDE_ACTORS, WIDE_CALLS = 64, 64, 2_500
BUS_MADE, POOL_MADE, WIDE_MADE, LONG_MADE = 648, 5_000, 2_500, 99_998
LONG_CALLS, LOST = 100_000, 45


class Script:
    """A script as it is written, with the number of handles that each channel has made."""

    def __init__(self, actors):
        self.actors, self.heads, self.calls, self.made = actors, [], [], []
        self.names = {"actors": {}, "channels": {}, "values": {}}

    def channel(self, head, name):
        self.heads.append(head)
        self.made.append(2)
        self.names["channels"][str(len(self.heads) - 1)] = name
        return len(self.heads) - 1

    def call(self, actor, channel, words):
        self.calls.append(f"{actor} {channel} {words}")

    def subscribe(self, actor, channel):
        self.call(actor, channel, "subscribe 0")
        self.made[channel] += 1
        return self.made[channel] - 1

    def send(self, actor, channel, value, text):
        self.names["values"].setdefault(str(channel), {})[str(value)] = text
        self.call(actor, channel, f"send 0 {value}")

    def text(self):
        return "\n".join([*self.heads, f"actors {self.actors}", *self.calls, ""]).encode()

    def written(self):
        """The journal and the file of names."""
        return native.record(self.text()), json.dumps(self.names).encode()


def receive(chance, run, actor, channel, handle):
    for _ in range(chance.randint(1, 3)):
        run.call(actor, channel, f"try-recv {handle}")


@functools.cache
def bus():
    """An event bus of 8 actors: three consumers are too slow, and one of them leaves untold. Both its channels are closed."""
    chance, run = random.Random(7), Script(8)
    run.names["actors"] = {str(number): name for number, name in enumerate(BUS_ACTORS)}
    events, flags = run.channel("broadcast 16", "event bus"), run.channel("watch 10", "feature flags")
    held = {actor: run.subscribe(0, events) for actor in BUS_PACE}
    seen = {actor: run.subscribe(0, flags) for actor in (5, 1)}
    run.call(0, events, "drop 1")
    value = 0
    while len(run.calls) < 640:
        turn = chance.random()
        if turn < 0.2:
            run.send(7, events, value, f'OrderPlaced {{ id: {value}, customer: "customer-{value:04}@example.org" }}')
            value += 1
        elif turn < 0.23:
            run.send(0, flags, 11 + value, f"flags=v{value} {{ checkout: {'on' if value % 2 else 'off'} }}")
        elif turn < 0.27:
            actor = chance.choice([5, 1])
            run.call(actor, flags, f"update {seen[actor]}")
        actor = chance.choice(list(held))
        if chance.random() < BUS_PACE[actor]:
            receive(chance, run, actor, events, held[actor])
        if len(run.calls) > 470 and 4 in held:
            run.call(4, events, f"drop {held.pop(4)}")
    run.send(0, flags, 9_999, "flags=last { checkout: off }")
    run.call(0, flags, "drop 0")
    run.call(5, flags, f"has-changed {seen[5]}")
    run.call(5, flags, f"update {seen[5]}")
    run.call(7, events, "drop 0")
    return run.written()


@functools.cache
def pool():
    """A pool of 20 channels and 40 actors."""
    return pool_of(POOL_CHANNELS, POOL_ACTORS, POOL_CALLS)


@functools.cache
def wide_pool():
    """A pool of 64 channels and 64 actors."""
    return pool_of(WIDE_CHANNELS, WIDE_ACTORS, WIDE_CALLS)


def pool_of(channels, actors, calls):
    """A pool in which each channel has a producer and three workers, and every third channel a slow one."""
    chance, run = random.Random(channels), Script(actors)
    half = actors // 2
    run.names["actors"] = {str(actor): f"{'producer' if actor < half else 'worker'}-{actor % half:02}" for actor in range(actors)}
    for channel in range(channels):
        run.channel(f"broadcast {chance.choice([4, 8, 16, 32])}", f"jobs.{channel:02}")
    workers = [[(half + (channel + 7 * turn) % half, run.subscribe(channel % half, channel)) for turn in range(3)] for channel in range(channels)]
    for channel in range(channels):
        run.call(channel % half, channel, "drop 1")
    while len(run.calls) < calls:
        channel = chance.randrange(channels)
        if chance.random() < 0.3:
            job = len(run.calls)
            run.send(channel % half, channel, job, f"job {channel:02}-{job:04} {chance.choice(['resize', 'thumbnail', 'index'])}")
            continue
        turn = chance.randrange(3)
        actor, handle = workers[channel][turn]
        if channel % 3 or turn or chance.random() < 0.2:
            receive(chance, run, actor, channel, handle)
    return run.written()


@functools.cache
def long():
    """100,000 calls, amid which a receiver loses values and is dropped before it is told."""
    run = Script(3)
    run.names["actors"] = {"0": "ticker", "1": "fast reader", "2": "late joiner"}
    ticks = run.channel("broadcast 4", "ticks")
    late = None
    for value in range(LONG_CALLS):
        if len(run.calls) >= LONG_CALLS - 2:
            break
        if value == 25_000:
            late = run.subscribe(2, ticks)
        if value == 25_000 + 4 + LOST:
            run.call(2, ticks, f"drop {late}")
        run.call(0, ticks, f"send 0 {value}")
        run.call(1, ticks, "try-recv 1")
    return run.written()
