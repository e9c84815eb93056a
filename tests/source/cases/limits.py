"""Each limit: runs at it and one above it, and one below it where that takes no time. The limits are those of docs/use/CALLS.md."""
from cases.case import FILE, Case

HANDLES = CAPACITY = 65536
CHANNELS = ACTORS = 64
ENTRIES = 1 << 20
LINE = 256
BYTES = 1 << 28
NAME = 16
INDEXES = 256
VALUE, HANDLE, STAMP = 2**64 - 1, 2**32 - 1, 2**62


def around(limit):
    return limit - 1, limit, limit + 1


def text_of(*lines):
    return "".join(f"{line}\n" for line in lines).encode()


def recorded(text):
    """A script is recorded."""
    return ("record", FILE), text, b""


def session(*lines):
    return ("session",), b"", text_of(*lines)


def checked(text):
    return ("check", FILE), text, b""


def salvaged(text):
    return ("salvage", FILE), text, b""


def debugged(text, *commands):
    return ("debug", FILE), text, text_of(*commands)


def journal(heads, entries, first="ttd-journal 2"):
    return text_of(first, *heads, "steps", *entries, "end")


def capacities():
    for capacity in around(CAPACITY):
        yield recorded(text_of(f"broadcast {capacity}", "0 0 send 0 1", "0 0 recv 1"))
        yield checked(journal([f"broadcast {capacity}"], ["1 0 0 send 0 1 = sent 1"]))
        # Receiver 1 lags, and receiver 2 doesn't, by the number of values.
        sends = [f"0 0 send 0 {value}" for value in range(capacity)]
        reads = ["0 0 subscribe 0", *sends, "0 0 recv 1", "0 0 send 0 7", "0 0 recv 2", "0 0 send 0 8", "0 0 recv 1", "0 0 recv 2", "0 0 sender-len 0"]
        yield session("broadcast 65536", *reads, "---", "state json", "back 3", "step", f"back {capacity}", "state json", "end", "rback lagging 0 1",
                      "rback lagging 0 2", f"rback unread 0 2 {CAPACITY}", f"rback queue 0 {CAPACITY}", "start", "state json", "end", "step")
    yield recorded(text_of("broadcast 0"))


def channels():
    for count in around(CHANNELS):
        heads = ["broadcast 1" if number % 3 else f"watch {number}" for number in range(count)]
        last = count - 1
        yield recorded(text_of(*heads, f"0 {last} send 0 5", f"0 {count} send 0 5"))
        yield session(*heads, f"0 {last} send 0 5", "---", "state", f"rback channel {last}", f"rback channel {count}", f"rback version {last} 1", "state json")
        yield checked(journal(heads, [f"1 0 {last} drop 0 = dropped"]))
        yield checked(journal(heads, [f"1 0 {count} drop 0 = dropped"]))
    yield recorded(b"")
    yield checked(journal([], []))


def actors():
    for count in around(ACTORS):
        for actor in (count - 1, count):
            yield recorded(text_of("broadcast 1", f"actors {count}", f"{actor} 0 send 0 5"))
            yield checked(journal(["broadcast 1"], [f"1 {actor} 0 send 0 5 = sent 1"]))
            yield session("broadcast 1", f"actors {count}", f"{actor} 0 send 0 5", "---", f"rback actor {actor}", "start", f"rforward actor {actor}", "step")
    for count in (0, 1):
        yield recorded(text_of("broadcast 1", f"actors {count}", "0 0 send 0 5"))
    # Each actor sends to its own channel, in its own thread.
    calls = [f"{actor} {actor} send 0 {actor}" for actor in range(ACTORS)] * 3
    yield ("record", "--threads", FILE), text_of(*["broadcast 2"] * ACTORS, f"actors {ACTORS}", *calls), b""


def makers(kind):
    """The calls that make a handle of a channel of this kind, and the lines before them that they need."""
    yield from (([], "subscribe 0"), ([], "clone-sender 0"))
    if kind == "watch 0":
        yield [], "clone-receiver 1"
        return
    yield [], "resubscribe 1"
    yield [], "downgrade 0"
    yield ["0 0 downgrade 0"], "clone-weak 2"
    yield ["0 0 downgrade 0"], "upgrade 2"
    yield ["0 0 downgrade 0", "0 0 drop 0"], "upgrade 2"


def handles():
    for kind in ("broadcast 1", "watch 0"):
        for before, maker in makers(kind):
            made = [f"0 0 {maker}"] * (HANDLES + 1 - 2 - sum("downgrade" in line for line in before))
            after = ["0 0 drop 1", f"0 0 {maker}", f"0 0 drop {HANDLES - 1}", f"0 0 drop {HANDLES}", "0 0 receiver-count 0"]
            yield session(kind, *before, *made, *after, "---", "step", "back", "step", "back", "step", "back 3", "step", "back", "step", "back 2", "step",
                          "rback reply too-many-handles", "rforward reply too-many-handles", "start", "rforward reply too-many-handles", "step", "state json")
        for handle in (*around(HANDLES), *around(HANDLE)):
            yield recorded(text_of(kind, f"0 0 drop {handle}"))
            yield checked(journal([kind], [f"1 0 0 drop {handle} = unknown"]))


def entries():
    one = "broadcast 1\n"
    for count in (ENTRIES, ENTRIES + 1):
        yield recorded((one + "0 0 drop 9\n" * count).encode())
        lines = [f"{stamp} 0 0 drop 9 = unknown" for stamp in range(1, count + 1)]
        yield checked(journal(["broadcast 1"], lines))
        yield checked(journal(["broadcast 1", "watch 0"], [*lines[:ENTRIES], f"{count + 2} 0 1 send 0 1 = stored"]))
    text = journal(["broadcast 1"], [f"{stamp} 0 0 send 0 {stamp} = sent 1" for stamp in range(1, ENTRIES + 1)])
    yield debugged(text, "state json", "back 1000000", "state json", "start", "end", "state json", "rback version 0 1", "rback queue 0 1", "step", "rforward lagging 0 1",
                   "step", "back", "state json", f"goto {ENTRIES}", f"goto {ENTRIES + 1}", "step")


def lines():
    for length in around(LINE):
        long = "#" * length
        digits = "1" * (length - len("0 0 send 0 "))
        for line in (long, "x" * length, "0 0 send 0 " + digits, " " * length):
            yield recorded(text_of("broadcast 1", line, "0 0 send 0 1"))
            yield recorded(text_of("broadcast 1", line)[:-1])
            yield session("broadcast 1", "0 0 send 0 1", "---", line, "step")
            yield ("session",), b"", text_of("broadcast 1", "---", line)[:-1]
        for place in range(5):
            parts = ["ttd-journal 2", "broadcast 1", "steps", "1 0 0 send 0 1 = sent 1", "end"]
            for line in (parts[place] + " " * (length - len(parts[place])), "9" * length):
                parts[place] = line
                for text in (text_of(*parts), text_of(*parts[: place + 1]), text_of(*parts[: place + 1])[:-1]):
                    yield checked(text)
                    yield salvaged(text)


def numerals():
    """Each numeral of a line at its limits, and with a zero in front."""
    script, entry = "ACTOR 0 send HANDLE VALUE", "STAMP ACTOR 0 send HANDLE VALUE = sent 1"
    usual = {"ACTOR": 0, "HANDLE": 0, "VALUE": 5, "STAMP": 1}
    greatest = {"ACTOR": ACTORS - 1, "HANDLE": HANDLE, "VALUE": VALUE, "STAMP": STAMP}
    for word, most in greatest.items():
        for numeral in (0, *around(most), f"0{most}", "00", "01", f"{most}0", "", "-0", "+1", "1e1", 2**63, VALUE, VALUE + 1, 10**20, "9" * 40):
            values = {**usual, word: numeral}
            if word != "STAMP":
                yield recorded(text_of("broadcast 1", f"actors {ACTORS}", filled(script, values)))
            yield checked(journal(["broadcast 1"], [filled(entry, values)]))
    for numeral in (0, "00", "01", *around(VALUE), "", "x", VALUE * 10):
        yield recorded(text_of(f"watch {numeral}", "0 0 borrow 1", "0 0 send-replace 0 18446744073709551615", "0 0 modify 0 18446744073709551615 no", "0 0 borrow 0"))
        yield checked(journal([f"watch {numeral}"], [f"1 0 0 borrow 1 = value {numeral}"]))
        yield checked(journal(["broadcast 1"], ["1 0 0 send 0 5 = sent 1", f"2 0 0 recv 1 = value {numeral}"]))
        asked = ("back", "forward", "goto", "rback actor", "rforward channel", "rforward version 0", "rforward queue 0", "rback unread 0 1")
        yield session("broadcast 1", "0 0 send 0 1", "---", *(f"{command} {numeral}" for command in asked), "step")


def filled(line, values):
    for word, value in values.items():
        line = line.replace(word, str(value))
    return line


def stamps():
    """The greatest stamp, and stamps of actors and channels that are equal, or one apart."""
    for stamp in around(STAMP):
        for other in around(stamp):
            for actor, channel in ((0, 0), (0, 1), (1, 0), (1, 1), (2, 1)):
                yield checked(journal(["broadcast 1", "watch 0"], [f"{stamp} 1 0 send 0 5 = sent 1", f"{other} {actor} {channel} drop 0 = dropped"]))
    yield checked(journal(["broadcast 1", "watch 0", "watch 1"], ["7 0 0 drop 0 = dropped", "7 1 2 drop 0 = dropped", "7 2 1 drop 0 = dropped"]))
    yield checked(journal(["broadcast 1", "watch 0", "watch 1"], ["7 0 1 drop 0 = dropped", "7 1 2 drop 0 = dropped", "8 0 0 drop 0 = dropped", "8 0 1 drop 1 = dropped"]))


def names():
    for length in around(NAME):
        name = "n" * length
        yield recorded(text_of("broadcast 1", f"0 0 subscribe 0 as {name}", f"0 0 try-recv {name}"))
    for name in ("as", "a", "at", "a1", "1a", "A", "a-b", "a_b", "", " a"):
        yield recorded(text_of("watch 1", f"0 0 clone-receiver 1 as {name}", f"0 0 update {name}"))
    heads = ["broadcast 1", "broadcast 1", "actors 2"]
    for lines in (
        ["0 0 subscribe 0 as x", "1 0 recv x"], ["0 0 subscribe 0 as x", "0 1 recv x"], ["0 0 subscribe 0 as x", "1 1 subscribe 0 as x"], ["0 0 recv x"],
        ["0 0 subscribe 9 as x", "0 0 drop x", "0 0 drop 4294967295"], ["0 0 send 0 1 as x"], ["0 0 drop 1 as x"],
        ["0 0 drop 0", "0 0 subscribe 0 as x", "0 0 subscribe x as y", "0 0 drop y"], ["0 0 subscribe 0 as x", "0 0 drop x", "0 0 drop x", "0 0 resubscribe x as y"],
    ):
        yield recorded(text_of(*heads, *lines))
        yield ("record", FILE, "--threads"), text_of(*heads[:2], *lines), b""


def indexes():
    """More conditions on entries than a session keeps indexes of, asked twice."""
    asked = [f"{way} {condition}" for condition in [f"actor {number}" for number in range(INDEXES + 2)] + ["reply sent", "channel 0"] for way in ("rback", "rforward")]
    yield session("broadcast 2", "actors 3", "0 0 send 0 1", "1 0 recv 1", "2 0 send 0 1", "---", "goto 1", *asked, "rback actor 0", "rforward actor 1", *asked, "step")


def sizes():
    """Texts with skipped lines behind them, up to these sizes."""
    skipped = memoryview((b"#" * (LINE - 1) + b"\n") * (BYTES // LINE))
    def padded(text, size):
        lines = (size - len(text)) // LINE * LINE
        return b"".join((text, skipped[:lines], b"#" * (size - len(text) - lines)))
    for size in (BYTES, BYTES + 1):
        yield checked(padded(b"y\n", size))
        yield recorded(padded(text_of("broadcast 1"), size))
        yield ("session",), b"", padded(text_of("broadcast 1", "---", "step"), size)
        yield ("debug", FILE), journal(["broadcast 1"], []), padded(text_of("step"), size)


def damage():
    """A journal of both kinds of channels, cut at each byte, and with each byte changed."""
    text = journal(["broadcast 2", "watch 7"], [
        "1 0 0 send 0 10 = sent 1", "2 1 0 downgrade 0 = new 2", "2 0 1 modify 0 8 no = told no", "3 1 0 recv 1 = value 10", "4 0 1 send-replace 0 9 = old 8",
        "9 2 1 changed 1 = done", "10 2 0 drop 0 = dropped", "11 2 0 upgrade 2 = no-sender", "11 0 1 has-changed 1 = flag no", "12 1 0 recv 1 = closed"])
    for at in range(len(text) + 1):
        yield salvaged(text[:at])
        yield salvaged(text[:at] + b"\n")
    for at in range(len(text)):
        for byte in b"0 \nz":
            yield checked(text[:at] + bytes([byte]) + text[at + 1:])
    for at in range(len(text)):
        yield checked(text[:at] + text[at + 1:])


# The number of a limit is its place. Those that take the longest come first.
LIMITS = (entries, handles, sizes, capacities, damage, lines, numerals, stamps, channels, actors, names, indexes)


def cases(_seed, number, _record):
    for row, (words, file, stdin) in enumerate(LIMITS[number]()):
        yield Case(f"limits {number} {LIMITS[number].__name__} {row}", words, file, stdin)
