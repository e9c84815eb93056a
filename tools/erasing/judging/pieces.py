"""Judges the marked parts of lines: what is erased within a line, and the words that are put in."""
import re

from . import contracts, marks

# What may be erased within a line, with what has to stand before and after it, marks too. A contract may stand anywhere.
WITHIN = [
    (re.compile(before), re.compile(piece), re.compile(after))
    for before, piece, after in (
        (r"#\[derive\((?:\w+|, |/\*~, \w+~\*/)*\w+(?:~\*/)?", r", (Drop|Error)", r"(?:, \w+|/\*~, \w+~\*/)*\)\]"),
        (r"#\[derive\(", r"(Drop|Error),", r" (?:\w+|, |/\*~, \w+~\*/)*\)\]"),
        (r".*[<,(] ?\w+", r": Drop", r"[,>].*"),
        (r".*[<, ]\w+: [\w:]+(?:<.*>)? ", r"\+ Drop", r"[ ,>].*"),
        (r".*[<, ]\w+: ", r"Drop \+", r" \w+.*"),
        (r"fn fmt", r"<W: fmt::Write>", r"\(&self, f: &mut fmt::Formatter/\*~<W>~\*/\) -> fmt::Result \{"),
        (r"fn fmt/\*~<W: fmt::Write>~\*/\(&self, f: &mut fmt::Formatter", r"<W>", r"\) -> fmt::Result \{"),
        (r".*\.", r"to_vec", r"/\*\+\*/try_to_vec/\*\+\*/\(alloc\).*"),
        (r".*/\*\+\*/crate::shim::saturated\(/\*\+\*/\w+ /\*\+\*/\)/\*\+\*/", r"as usize", r"[^\w].*"),
    )
]
PUT = [
    (re.compile(before), re.compile(piece), re.compile(after))
    for before, piece, after in (
        (r".*\./\*~to_vec~\*/", r"try_to_vec", r"\(alloc\).*"),
        (r"impl(?:<.*>)? ", r"crate::shim::fallible::", r"Clone for \w+(?:<.*>)? \{"),
        (r"(?:.*[^\w.])?", r"crate::shim::saturated\(", r"\w+ /\*\+\*/\)/\*\+\*//\*~as usize~\*/[^\w].*"),
        (r"(?:.*[^\w.])?/\*\+\*/crate::shim::saturated\(/\*\+\*/\w+ ", r"\)", r"/\*~as usize~\*/[^\w].*"),
    )
]
MARKS = {"kept": "{}", "erased": "/*~{}~*/", "put": "/*+*/{}/*+*/"}


def is_allowed(forms, before, piece, after):
    return any(a.fullmatch(before) and b.fullmatch(piece) and c.fullmatch(after) for a, b, c in forms)


def is_contract(piece):
    """Whether a piece is contracts, with nothing around them."""
    try:
        contracts.block(piece)
    except contracts.Unread:
        return False
    return piece == piece.strip()


def judge_line(line):
    """The faults of the marked parts of a kept line, among them a line of which nothing is left."""
    parts = marks.pieces(line.text)
    if len(parts) == 1:
        return
    if not any(part.kind == "kept" and part.text.strip() for part in parts):
        yield marks.Fault(line.number, "nothing is left of this line, so it has to be marked as a whole")
    for n, part in enumerate(parts):
        before = "".join(MARKS[other.kind].format(other.text) for other in parts[:n]).lstrip()
        after = "".join(MARKS[other.kind].format(other.text) for other in parts[n + 1 :])
        if part.kind == "put" and not is_allowed(PUT, before, part.text, after):
            yield marks.Fault(line.number, f"words that may not be put in: {part.text}")
        elif part.kind == "erased" and not is_allowed(WITHIN, before, part.text, after) and not is_contract(part.text):
            yield marks.Fault(line.number, f"erased without being a contract: {part.text}")
