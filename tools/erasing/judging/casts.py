"""Judges casts by casts.txt: each is in the table, with a limit that fits in 32 bits and a place where this limit stands.

The proofs are of 64-bit targets, on which a `usize` has 64 bits. On others `as usize` would lose bits of a greater number.
"""
import re
import typing

from . import marks

# Casts to these lose nothing of a `usize` on any target, so they have no rows.
WIDE = ("u64", "u128")
TYPES = ("u8", "u16", "u32", "usize", "i8", "i16", "i32", "i64", "i128", "isize", "char", *WIDE)
# What bounds a cast besides a constant: its type, or that it counts things in memory.
BY_TYPE = ("u32", "from-usize", "from-u64")
BY_PLACE = ("length", "widened", "saturated")


class Row(typing.NamedTuple):
    """A row of the table."""

    line: int
    file: str
    function: str
    cast: str
    times: int
    bound: str
    reason: str


class Table:
    """casts.txt: the limits by their names, the rows, and the faults of lines that are neither."""

    def __init__(self, text):
        self.limits, self.rows, self.faults = {}, [], []
        for number, line in enumerate(text.split("\n"), 1):
            cells = [cell.strip() for cell in line.split("|")]
            if line.startswith("#") or not line.strip():
                continue
            if len(cells) == 3 and cells[1].replace("_", "").isdigit():
                self.limits[cells[0]] = (number, int(cells[1].replace("_", "")), cells[2])
            elif len(cells) == 6 and cells[3].isdigit():
                self.rows.append(Row(number, *cells[:3], int(cells[3]), *cells[4:]))
            else:
                self.faults.append(marks.Fault(number, "neither a limit with a value and a file, nor a row of six cells"))


def operand(code, i):
    """The text before the `as` at token `i`: a name, a path of fields, a call, an index, or something in brackets."""
    start = i - 1
    while True:
        if code.is_sign(start, ")]"):
            start = code.pair_of(start)
            if code.kind(start - 1) != "word" and not code.is_sign(start - 1, ")]"):
                break
            start -= 1
        elif code.has(start - 1, ".") or code.has(start - 1, "::"):
            start -= 2
        else:
            break
    return joined(code.tokens[start:i])


def joined(found):
    """Tokens as they are written: spaces only around operators."""
    text = ""
    for token in found:
        text += f" {token.text} " if token.kind == "sign" and token.text in "%+-/*" else token.text
    return text


def casts_of(code):
    """Each cast that needs a row, as its function and its text, with the lines where it stands."""
    found = {}
    for i in range(len(code)):
        if code.has(i, "as") and not code.in_use(i) and code.text(i + 1) not in WIDE and code.text(i + 1) in TYPES:
            found.setdefault((code.function(i), f"{operand(code, i)} as {code.text(i + 1)}"), []).append(code.tokens[i].line)
        elif code.has(i, "usize", "::", "try_from"):
            found.setdefault((code.function(i), "usize::try_from"), []).append(code.tokens[i].line)
    return found


def saturated_of(code):
    """Each cast that the shim makes in place of the source, as `casts_of` has them."""
    found = {}
    for i in range(len(code)):
        if code.has(i, "crate", "::", "shim", "::", "saturated", "("):
            found.setdefault((code.function(i), f"{code.text(i + 6)} as usize"), []).append(code.tokens[i].line)
    return found


def judge_file(code, file, table):
    """The faults of casts of one file whose row is missing, says otherwise how they are made, or counts other than these."""
    rows = {(row.function, row.cast): row for row in table.rows if row.file == file}
    made = [(False, *one) for one in casts_of(code).items()] + [(True, *one) for one in saturated_of(code).items()]
    for is_saturated, key, lines in made:
        row = rows.get(key)
        if row and (row.bound == "saturated") != is_saturated:
            yield marks.Fault(lines[0], f"{key[1]} is {'' if is_saturated else 'not '}saturated here, and casts.txt, line {row.line}, says otherwise")
        elif not row:
            yield marks.Fault(lines[0], f"a cast without a row in casts.txt: {key[0]} | {key[1]} | {len(lines)}")
        elif row.times != len(lines):
            yield marks.Fault(lines[0], f"{key[1]} stands here {len(lines)} times, and {row.times} times in casts.txt, line {row.line}")


def factors_of(name, source):
    """The factors of a constant of a source: numbers and the names of other constants. None where it isn't there."""
    found = re.search(rf"^(?:pub(?:\(crate\))? )?const {name}: u\w+ = ([\w *]+);", source, re.M)
    return found and found[1].replace("_", "" if found[1][0].isdigit() else "_").split(" * ")


def value_of(factors, limits):
    """The product of factors, or None where one of them has no limit."""
    value = 1
    for factor in factors:
        if factor not in limits and not factor.isdigit():
            return None
        value *= limits[factor][1] if factor in limits else int(factor)
    return value


def judge_limits(table, sources):
    """The faults of the limits. Each is a constant with that value, fits in 32 bits, and bounds a cast or is a factor of one that does."""
    factors = {name: factors_of(name, sources.get(file, "")) or ["?"] for name, (_, _, file) in table.limits.items()}
    used = {row.bound for row in table.rows} | {factor for found in factors.values() for factor in found}
    for name, (line, value, file) in table.limits.items():
        if value_of(factors[name], table.limits) != value:
            yield marks.Fault(line, f"{file} has no constant {name} of {value}")
        if value >= 2**32:
            yield marks.Fault(line, f"{name} doesn't fit in 32 bits")
        if name not in used:
            yield marks.Fault(line, f"no row has the limit {name}")


def judge_row(row, sources, code, table):
    """The fault of a row whose cast isn't there any more, or whose reason doesn't stand in its file, or in the one that it names."""
    found = {} if code is None else saturated_of(code) if row.bound == "saturated" else casts_of(code)
    if (row.function, row.cast) not in found:
        return f"a row for a cast that isn't there: {row.file}, {row.function}, {row.cast}"
    if row.bound in BY_TYPE:
        return None if not row.reason else "a bound by type has no reason"
    if row.bound not in BY_PLACE and row.bound not in table.limits:
        return f"no limit is called {row.bound}"
    other, colon, reason = row.reason.partition(": ")
    file, reason = (other, reason) if colon and other in sources else (row.file, row.reason)
    if not reason or reason not in sources.get(file, ""):
        return f"what bounds the cast doesn't stand in {file}: {reason}"
    return None


def judge_table(table, sources, codes):
    """The faults of the table itself, by its lines. `sources` and `codes` are by the files' names."""
    yield from table.faults
    yield from judge_limits(table, sources)
    seen = set()
    for row in table.rows:
        why = judge_row(row, sources, codes.get(row.file), table)
        if (row.file, row.function, row.cast) in seen:
            why = "a second row for the same cast"
        seen.add((row.file, row.function, row.cast))
        if why:
            yield marks.Fault(row.line, why)
