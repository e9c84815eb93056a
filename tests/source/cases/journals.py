"""Random journals, whole and damaged, and the runs of `check`, `salvage` and `debug` over them."""
from cases.case import FILE, Case, random_of
from cases.channels import BROADCAST, WATCH
from cases.commands import WORDS, Run, commands
from cases.scripts import script_of

# Numerals at the limits, above them, and some that are none.
NUMERALS = (
    "0", "1", "2", "3", "63", "64", "65", "65535", "65536", "65537", "1048575", "1048576", "4294967295", "4294967296", "4611686018427387903",
    "4611686018427387904", "4611686018427387905", "9223372036854775808", "18446744073709551615", "18446744073709551616", "99999999999999999999", "00", "01", "-1",
    "+1", "1.0", "x", "", "0x1",
)
CALL_WORDS = sorted({*BROADCAST, *WATCH})
BYTES = b"0123456789 \n\r\t=-abdelnostuwz#\x00\xff"


def restamped(random, lines):
    """The entries at other stamps that keep their order: with gaps, and equal ones where channels and actors differ."""
    made, stamp, last_channel, by_actor = [], 0, -1, {}
    leap = random.choice((1, 2, 1000, 2**40, 2**50))
    for line in lines:
        _, actor, channel, rest = line.split(" ", 3)
        may_stay = int(channel) > last_channel and by_actor.get(actor, 0) < stamp
        if not may_stay or random.random() < 0.4:
            stamp += random.choice((1, 1, random.randrange(1, leap + 1)))
        last_channel, by_actor[actor] = int(channel), stamp
        made.append(f"{stamp} {actor} {channel} {rest}")
    if made and random.random() < 0.1:
        # Its last entry at the greatest stamp, or one above.
        made[-1] = f"{2**62 + random.choice((0, 0, 1))} {made[-1].split(' ', 1)[1]}"
    return made


def other_token(random, line):
    """The line with one token that is another: a numeral one higher or lower, or at a limit, or another word."""
    tokens = line.split(" ")
    at = random.randrange(len(tokens))
    token = tokens[at]
    if token.isdigit() and random.random() < 0.5:
        token = str(max(0, int(token) + random.choice((-2, -1, 1, 2))))
    elif token.isdigit():
        token = random.choice(NUMERALS)
    else:
        token = random.choice((random.choice(CALL_WORDS), random.choice(WORDS), "waits", "=", "yes", "no", "broadcast", "watch", "steps", "end", token.upper()))
    tokens[at] = token
    return " ".join(tokens)


def other_reply(random, line):
    """The line with another reply, mostly one that its call could have at another place."""
    call, found, reply = line.partition(" = ")
    if not found:
        return other_token(random, line)
    word, _, rest = reply.partition(" ")
    if rest.isdigit() and random.random() < 0.6:
        return f"{call} = {word} {max(0, int(rest) + random.choice((-2, -1, 1, 1, 2)))}"
    numbered = ("sent", "no-receivers", "old", "value", "lagged", "new", "count")
    word = random.choice(WORDS)
    return f"{call} = {word}" + (f" {rest if rest.isdigit() else random.randrange(3)}" if word in numbered else " yes" if word in ("told", "flag") else "")


def other_shape(random, line):
    """The line with a token more or less, or another space."""
    tokens = line.split(" ")
    at = random.randrange(len(tokens))
    way = random.randrange(5)
    if way == 0:
        tokens.pop(at)
    elif way == 1:
        tokens.insert(at, random.choice(tokens + ["1", "x", "="]))
    elif way == 2:
        tokens[at] += random.choice((" ", "\t", "\r"))
    elif way == 3:
        return line + random.choice((" ", "\r", " 1", " = ", "x"))
    else:
        return " " * random.choice((1, 1, 256 - len(line), 257 - len(line))) + line
    return " ".join(tokens)


def damaged_lines(random, lines):
    """Some lines changed, moved, left out or added."""
    lines = list(lines)
    for _ in range(random.choice((1, 1, 1, 2, 4))):
        at, to = random.randrange(len(lines)), random.randrange(len(lines))
        way = random.randrange(10)
        if way < 3:
            lines[at] = other_token(random, lines[at])
        elif way < 5:
            lines[at] = other_reply(random, lines[at])
        elif way == 5:
            lines[at] = other_shape(random, lines[at])
        elif way == 6:
            lines[at], lines[to] = lines[to], lines[at]
        elif way == 7 and len(lines) > 1:
            lines.pop(at)
        elif way == 8:
            lines.insert(to, lines[at])
        else:
            lines.insert(at, random.choice(("", "#", "# x", "steps", "end", "broadcast 1", "watch 0", "ttd-journal 2", "9" * 255, "9" * 256, "9" * 257, "x" * 256, "x" * 300)))
    return lines


def damaged_bytes(random, text):
    """Some bytes changed, left out or added."""
    text = bytearray(text)
    for _ in range(random.choice((1, 1, 1, 2, 8))):
        at = random.randrange(len(text))
        way = random.randrange(6)
        if way < 4:
            text[at] = random.choice(BYTES)
        elif way == 4 and len(text) > 1:
            del text[at]
        else:
            text.insert(at, random.choice(BYTES))
    return bytes(text)


def cut(random, text):
    """The text up to anywhere: any byte, an end of a line, or one of the places at which it begins to be salvaged."""
    ends = [at + 1 for at, byte in enumerate(text) if byte == 10]
    steps = text.find(b"steps\n")
    place = random.choice((random.randrange(len(text)), random.randrange(len(text)), random.choice(ends), random.choice(ends) - 1, steps + 5, steps + 6,
                           len(text) - 1, len(text) - 4, len(text) - 5, 0))
    return text[: max(place, 0)]


def damaged(random, lines):
    """The text of these lines, mostly damaged."""
    way = random.random()
    text = ("\n".join(lines) + "\n").encode()
    if way < 0.35:
        return text
    if way < 0.6:
        return ("\n".join(damaged_lines(random, lines)) + "\n").encode()
    if way < 0.7:
        return damaged_bytes(random, text)
    if way < 0.9:
        text = cut(random, text)
        return text + random.choice((b"", b"", b"", b"x" * 257, b"\x00", b"1 0 0", b"\n", b"end", b"end\n", b"=" * 256))
    if way < 0.93:
        return text.replace(b"\n", b"\r\n")
    return text + random.choice((b"\n", b"x", b"end\n", b" ", b"\x00", b"1 0 0 drop 0 = dropped\n", b"#\n", text))


def cases(seed, number, record):
    """The runs over one journal. `record` returns the journal of a script."""
    random = random_of(seed, "journals", number)
    script = script_of(random, 400 if number % 16 == 3 else 120)
    lines = record("\n".join(script.lines).encode() + b"\n").decode().split("\n")[:-1]
    first = lines.index("steps") + 1
    if random.random() < 0.6:
        lines[first:-1] = restamped(random, lines[first:-1])
    if random.random() < 0.15:
        lines[0] = random.choice((*["ttd-journal 1"] * 9, "ttd-journal 3", "ttd-journal 02", "ttd-journal 0", "ttd-journal", "ttd-journal 2 ", "TTD-journal 2"))
    text = damaged(random, lines)
    name = f"journals {number}"
    return [Case(f"{name} check", ("check", FILE), text), Case(f"{name} salvage", ("salvage", FILE), text),
            Case(f"{name} debug", ("debug", FILE), text, commands(random, Run(script)))]
