"""Random scripts, and the runs of `record` over them."""
from cases.case import FILE, MOST, Case, random_of
from cases.channels import MAKES, STYLES, Channel

NAMES = ("a", "z9", "slow", "tx", "rx2", "abcdefghijklmnop", "y0", "ass", "send")
# Lines for any place of a script, most of them wrong there.
ODD_LINES = (
    "", "#", "# a comment", "#" + "c" * 254, "#" + "c" * 255, "#" + "c" * 256, " ", " 0 0 send 0 1", "0 0 send 0 1 ", "0  0 send 0 1", "0 0 send 0 1\r",
    "0 0 send 0 1\t", "nonsense", "broadcast 0", "broadcast 65536", "broadcast 65537", "broadcast 04", "broadcast", "broadcast 1 1", "watch",
    "watch 18446744073709551615", "watch 18446744073709551616", "watch 007", "actors 0", "actors 64", "actors 65", "actors 1 2", "actors",
    "0 0 send 00 1", "00 0 send 0 1", "0 0 send 0 01", "0 0 send 0", "0 0 send", "0 0", "0", "0 0 send 0 1 2", "0 0 send 0 1 as x", "0 0 send x 1",
    "0 0 send 4294967295 1", "0 0 send 4294967296 1", "0 0 send 18446744073709551616 1", "0 0 send 0 18446744073709551615",
    "0 0 send 0 18446744073709551616", "0 0 Send 0 1", "0 0 try_recv 1", "0 0 try-recv 1 1", "0 0 sub2 0", "0 0 - 0", "0 0 subscribe 0 as", "-1 0 send 0 1",
    "0 0 subscribe 0 as as", "0 0 subscribe 0 as A", "0 0 subscribe 0 as 1a", "0 0 subscribe 0 as abcdefghijklmnopq", "0 0 subscribe 0 at x",
    "0 0 subscribe 0 as x1 y", "0 0 modify 0 1 maybe", "0 0 modify 0 1", "0 0 modify 0 1 yes no", "0 0 modify 0 yes", "64 0 send 0 1", "63 0 send 0 1",
    "0 64 send 0 1", "0 63 send 0 1", "18446744073709551615 0 send 0 1", "18446744073709551616 0 send 0 1", "0 0 drop none", "0 0 closed 1", "0 0 new 0",
    "0 0 weak 0", "0 0 downgrade 1", "0 0 clone-weak 0", "--", "----", " ---", "--- ", "0 0 send 0 \x00", "0 0 send 0 \xff", "\xef\xbb\xbfbroadcast 1",
    "0 0 send 0 " + "1" * 244, "0 0 send 0 " + "1" * 245, "0 0 send 0 " + "1" * 246, "0" * 257, "x" * 256, "x" * 257, "x" * 5000,
)


def value_of(random):
    return random.choice((0, 1, random.randrange(10), random.randrange(1000), random.randrange(2**64), MOST["value"] if random.random() < 0.2 else 5))


class Script:
    """The lines of a random script, with what a session of it can ask for."""

    def __init__(self, random, channels, actors, may_wait):
        self.random, self.actors, self.may_wait = random, actors, may_wait
        self.channels = [Channel(random) for _ in range(channels)]
        self.style = STYLES[random.choice(list(STYLES))]
        self.names, self.steps = {}, 0
        self.lines = [it.head() for it in self.channels]
        if actors > 1 or random.random() < 0.2:
            self.lines.append(f"actors {actors}")

    def step(self, actor, channel):
        """Adds a step line, unless it would wait where that isn't wanted, or nothing is left of the channel."""
        random, it = self.random, self.channels[channel]
        if not any(it.alive.values()) and random.random() < 0.9:
            return
        word = random.choices(list(it.words), [it.weight(word, self.style) for word in it.words])[0]
        handle, said = self.handle(actor, channel, it.words[word])
        if it.waits(word, handle) and (not self.may_wait or random.random() < 0.7):
            return
        told = word != "modify" or random.random() < 0.6
        line = f"{actor} {channel} {word} {said}"
        if word in ("send", "send-replace", "modify"):
            line += f" {value_of(random)}"
        if word == "modify":
            line += " yes" if told else " no"
        if word in MAKES and random.random() < 0.25:
            line += self.bound(actor, channel, it.made_by(word, handle))
        it.call(word, handle, told)
        self.lines.append(line)
        self.steps += 1

    def handle(self, actor, channel, kind):
        """A handle, and what it is called: its number, or a name that this actor gave to one of this channel."""
        if self.random.random() < 0.3:
            own = [(name, made) for name, (of, on, made) in self.names.items() if (of, on) == (actor, channel)]
            alive = self.channels[channel].alive
            fit = [it for it in own if kind == "any" or it[1] in alive[kind]]
            own = fit if self.random.random() < 0.9 else own
            if own and (kind != "any" or self.random.random() < 0.1):
                name, made = self.random.choice(own)
                return made, name
        number = self.channels[channel].handle(self.random, kind)
        return number, str(number)

    def bound(self, actor, channel, made):
        name = self.random.choice(NAMES + (f"n{self.steps}",) * 9)
        if name in self.names:
            return ""
        self.names[name] = (actor, channel, MOST["handle"] if made is None else made)
        return f" as {name}"

    def text(self):
        return "\n".join(self.lines).encode("latin-1") + self.random.choice((b"\n", b"\n", b"\n", b""))


def script_of(random, most=160):
    """A random script of up to these many steps."""
    script = Script(random, random.choice((1, 1, 1, 2, 2, 3, 4)), random.choice((1, 1, 2, 3, 5, 8, 64)), random.random() < 0.12)
    for _ in range(random.choice((random.randrange(8), random.randrange(60), random.randrange(most)))):
        script.step(random.randrange(script.actors), random.randrange(len(script.channels)))
    return script


def odd_text(random, script):
    """The script with a line or two that mostly don't belong there, or with lines in another order."""
    lines = list(script.lines)
    for _ in range(random.choice((1, 1, 1, 2, 3))):
        at = random.randrange(len(lines) + 1)
        chance = random.random()
        if chance < 0.75 or at == len(lines):
            lines.insert(at, random.choice(ODD_LINES))
        elif chance < 0.85:
            lines.insert(random.randrange(len(lines)), lines.pop(at))
        elif chance < 0.9:
            lines.insert(random.randrange(len(lines)), lines[at])
        elif chance < 0.95:
            lines[at] = " ".join(lines[at].split(" ")[: random.randrange(1, 5)])
        else:
            lines.insert(at, "---")
    ending = "\r\n" if random.random() < 0.03 else "\n"
    return ending.join(lines).encode("latin-1") + random.choice((b"\n", b""))


def relay(random):
    """A script whose threads wait for each other in turn, so that their run is the same however they are scheduled: each actor has a
    channel of its own, on which it waits for the actor before it, and passes the last value on."""
    actors = random.randrange(1, 9)
    script = Script(random, actors + 1, actors, False)
    heads = len(script.lines)
    for actor in range(actors):
        own = script.channels[actor]
        if actor:
            waits = "changed" if own.is_watch else "recv"
            script.lines.append(f"{actor} {actor} {waits} 1")
            own.call("send", 0, True)
            own.call(waits, 1, True)
        for _ in range(random.randrange(12)):
            script.step(actor, actor)
        script.lines.append(f"{actor} {actor + 1} send 0 {random.randrange(100)}")
    # Names are those of their own actor's lines alone, so the actors' lines may stand in any order.
    return shuffled(random, script.lines[:heads], script.lines[heads:])


def shuffled(random, head, steps):
    """The lines of each actor stay in their order, and are mixed with those of the others."""
    by_actor = {}
    for line in steps:
        by_actor.setdefault(line.split(" ")[0], []).append(line)
    order = [line.split(" ")[0] for line in steps]
    random.shuffle(order)
    return "\n".join(head + [by_actor[actor].pop(0) for actor in order]).encode() + b"\n"


def cases(seed, number, _record):
    """The runs of one script."""
    random = random_of(seed, "scripts", number)
    name = f"scripts {number}"
    if number % 8 == 7:
        text = relay(random)
        words = random.choice((("record", FILE, "--threads"), ("record", "--threads", FILE)))
        return [Case(name, words, text)]
    script = script_of(random, 600 if number % 16 == 3 else 160)
    text = odd_text(random, script) if random.random() < 0.3 else script.text()
    return [Case(name, ("record", FILE), text)]
