"""The losses of a run, by the states that the program writes at all its places."""
import functools
import json
from dataclasses import dataclass


@dataclass
class Loss:
    channel: int
    receiver: int
    start: int
    lost: int = 0
    end: str = "open"
    to: int = 0


def each_state(ask, last):
    """The states at all places, one after the other: together they take much memory."""
    lines = ask("".join(f"goto {place}\nstate json\n" for place in range(last + 1))).split("\n")
    return (json.loads(line) for line in lines if line.startswith("{"))


def states(ask, last):
    return list(each_state(ask, last))


def lags(state):
    """The lag of each live receiver of a broadcast, by channel and receiver."""
    return {(channel, it["handle"]): it["lag"] for channel, of in enumerate(state["channels"]) for it in of["receivers"] if "lag" in it}


@functools.cache
def losses_of(ask, last):
    """Longest stretches of places at which a receiver lags, in the order in which they begin."""
    open_ones, found = {}, []
    for place, now in enumerate(map(lags, each_state(ask, last))):
        for key in [key for key in open_ones if not now.get(key)]:
            loss = open_ones.pop(key)
            loss.end, loss.to = "told" if key in now else "dropped", place
        for key, lag in sorted(now.items()):
            if lag and key not in open_ones:
                open_ones[key] = Loss(*key, place)
                found.append(open_ones[key])
            if lag:
                open_ones[key].lost = lag
    return found


def stops_of(losses):
    """The places where a loss begins or ends."""
    return sorted({it.start for it in losses} | {it.to for it in losses if it.end != "open"})
