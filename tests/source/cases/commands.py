"""Random commands over a run: walks, listings, searches, and lines that are no command."""

WORDS = (
    "sent", "stored", "no-receivers", "old", "told", "value", "lagged", "empty", "closed", "new", "no-sender", "dropped", "count", "flag", "done",
    "unknown", "gone", "wrong-kind", "too-many-handles",
)
ODD = (
    "", "#", "# state", "#" + "x" * 255, "#" + "x" * 256, "sideways", "State", "state ", " state", "state  json", "state jso", "state json x", "state\r", "steps",
    "step 1", "list 1", "start 0", "end 0", "quit now", "back -1", "back 01", "back x", "back 1 2", "back ", "back 18446744073709551615",
    "forward 18446744073709551616", "forward 18446744073709551615", "goto", "goto 00", "goto 18446744073709551615", "goto 18446744073709551616", "goto 1 ",
    "rback", "rforward", "rback nothing", "rforward nothing 1", "rback reply", "rback reply waits", "rback reply value 1", "rback reply Value", "rback actor",
    "rback actor 1 1", "rback actor x", "rback actor 18446744073709551616", "rforward channel", "rforward channel -", "rback unread 0 1", "rback unread 0 1 1 1",
    "rback lagging 0", "rback lagging 0 1 1", "rback unseen 0", "rback version 0", "rback version 0 1 1", "rback closed", "rback closed 0 0", "rback queue 0",
    "rback queue 0 01", "rforward queue", "x" * 256, "x" * 257, "goto " + "0" * 252, "---", "back\x00", "\xff",
)
NUMBERS = (0, 1, 2, 63, 64, 65535, 65536, 2**32 - 1, 2**32, 2**64 - 1)


class Run:
    """What is known of the run of a script: how many entries it has at most, and its channels."""

    def __init__(self, script):
        self.steps, self.actors, self.channels = script.steps, script.actors, script.channels


def count_of(random, most):
    return random.choice((0, 1, 1, 2, 2, 3, 4, 5, random.randrange(most + 2), random.randrange(most + 2), most, most + 1, random.choice(NUMBERS)))


def any_condition(random, run):
    """A condition of any kind on any channel and handle, there or not."""
    channel = random.choice((random.randrange(len(run.channels)), len(run.channels), random.choice(NUMBERS)))
    made = run.channels[channel].made if channel < len(run.channels) else 3
    handle = random.choice((1, random.randrange(made), made, random.choice(NUMBERS)))
    count = count_of(random, 9)
    return random.choice((
        f"actor {random.choice((random.randrange(run.actors), run.actors, random.choice(NUMBERS)))}", f"channel {channel}", f"reply {random.choice(WORDS)}",
        f"unread {channel} {handle} {count}", f"lagging {channel} {handle}", f"unseen {channel} {handle}", f"version {channel} {count}", f"closed {channel}",
        f"queue {channel} {count}",
    ))


def condition(random, run):
    """Mostly a condition that some place of the run may meet."""
    if random.random() < 0.25:
        return any_condition(random, run)
    number = random.randrange(len(run.channels))
    channel = run.channels[number]
    receiver = random.choice(channel.receivers)
    on_steps = (f"actor {random.randrange(min(run.actors, 4))}", f"channel {number}", f"reply {random.choice(WORDS)}", f"reply {random.choice(WORDS)}")
    if channel.is_watch:
        on_states = (f"unseen {number} {receiver}", f"unseen {number} {receiver}", f"version {number} {count_of(random, channel.sent)}", f"closed {number}")
    else:
        count = count_of(random, min(channel.sent, 9))
        on_states = (f"unread {number} {receiver} {count}", f"unread {number} {receiver} {count}", f"lagging {number} {receiver}", f"queue {number} {count}",
                     f"closed {number}")
    return random.choice(random.choice((on_steps, on_states, on_states)))


def moves(random, run):
    """A move, mostly a short one or one to anywhere."""
    far = random.randrange(run.steps + 2)
    return random.choice((
        "back", "forward", f"back {random.randrange(6)}", f"forward {random.randrange(6)}", f"back {far}", f"forward {far}", f"goto {far}", f"goto {far}",
        "start", "end",
    ))


def shown(random):
    return random.choice(("state", "state json", "state json", "step"))


def walk(random, run):
    """Moves, and what is there."""
    for _ in range(random.randrange(1, 25)):
        yield moves(random, run)
        yield shown(random)


def search(random, run):
    """One condition, sought to the end in one way and in the other."""
    asked = condition(random, run)
    yield random.choice(("start", "end", "start", moves(random, run)))
    for _ in range(random.randrange(1, 8)):
        yield f"rforward {asked}"
    yield shown(random)
    for _ in range(random.randrange(1, 8)):
        yield f"rback {asked}"
    yield shown(random)


def searches(random, run):
    """Several conditions in turn, some of them asked again."""
    asked = [condition(random, run) for _ in range(random.randrange(1, 5))]
    yield random.choice(("start", "end", moves(random, run)))
    for _ in range(random.randrange(1, 20)):
        yield f"{random.choice(('rback', 'rforward'))} {random.choice(asked)}"
        if random.random() < 0.2:
            yield moves(random, run)


def each_place(random, run):
    """Back over all places and forward again, with the state of each: a step that is undone wrongly shows."""
    most = min(run.steps, 40)
    yield "end"
    for way in random.choice((("back", "forward"), ("back", "forward", "back"))):
        for _ in range(most):
            yield way
            yield "state json"
    yield "state"


def far_and_back(random, run):
    """From one end to anywhere and back."""
    for _ in range(random.randrange(1, 6)):
        yield random.choice(("start", "end"))
        yield f"goto {random.randrange(run.steps + 1)}"
        yield "state"
        yield random.choice(("end", "start"))
        yield "state json"


def commands(random, run):
    """The lines of a session, as bytes."""
    lines = []
    parts = [walk, search, search, searches, far_and_back] + ([each_place] if run.steps < 60 or random.random() < 0.3 else [])
    for part in random.choices(parts, k=random.choice((0, 1, 2, 3, 5))):
        lines += part(random, run)
        if random.random() < 0.1:
            lines.append("list")
    for _ in range(random.choice((0, 0, 1, 5))):
        lines.insert(random.randrange(len(lines) + 1), random.choice(ODD))
    if random.random() < 0.1:
        lines.insert(random.randrange(len(lines) + 1), "quit")
    return "\n".join(lines).encode("latin-1") + (b"\n" if lines and random.random() < 0.9 else b"")
