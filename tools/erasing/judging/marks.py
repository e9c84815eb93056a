"""The lines of a file of the Rust source, by their marks, and where these marks may stand."""
import re
import typing

PIECE = re.compile(r"/\*~(?P<erased>.*?)~\*/|/\*\+\*/(?P<put>.*?)/\*\+\*/")
MARKS = ("//~", "//+", "/*~", "~*/", "/*+*/", "crate::source::", "crate::shim::")


class Fault(typing.NamedTuple):
    """What isn't allowed, and its line."""

    line: int
    why: str


class Line(typing.NamedTuple):
    """A line: `kind` is kept, erased or added. `text` is without the mark of the whole line."""

    number: int
    kind: str
    text: str


class Piece(typing.NamedTuple):
    """A part of a kept line: `kind` is kept, erased or put."""

    kind: str
    text: str


def line_of(number, text):
    if text.endswith(" //+"):
        return Line(number, "added", text[:-4])
    if text.startswith("//~"):
        return Line(number, "erased", text[4:])
    return Line(number, "kept", text)


def lines(rust):
    return [line_of(number, text) for number, text in enumerate(rust.split("\n"), 1)]


def pieces(line):
    """The parts of a kept line, in their order."""
    found, at = [], 0
    for one in PIECE.finditer(line):
        found += [Piece("kept", line[at : one.start()]), Piece(one.lastgroup, one[one.lastgroup])]
        at = one.end()
    return [*found, Piece("kept", line[at:])]


def kept_code(line):
    """What is left of a kept line for rustc: neither erased nor put."""
    return "".join(piece.text for piece in pieces(line) if piece.kind == "kept")


def misplaced(found):
    """Faults of marks that rustc would read otherwise than the judge does. `found` are the tokens of a file, comments with them."""
    for token in found:
        if token.kind == "string" and any(mark in token.text for mark in MARKS):
            yield Fault(token.line, "a mark in a string")
        elif token.kind == "comment" and token.text.startswith("/*") and not PIECE.match(token.text) and token.text != "/*+*/":
            yield Fault(token.line, "a block comment")
        elif token.kind == "comment" and token.text.startswith("//"):
            if not token.text.startswith("//~") and any(mark in token.text[2:].removesuffix(" //+") for mark in MARKS):
                yield Fault(token.line, "a mark in a comment")


def unmarked(rust):
    """Faults of erased lines whose mark isn't written as the eraser writes it."""
    for number, line in enumerate(rust.split("\n"), 1):
        if line.startswith("//~") and line != "//~" and not (line.startswith("//~ ") and line[4:].strip()):
            yield Fault(number, "the mark of an erased line is `//~ `, and `//~` alone where the line is empty")
        elif line.lstrip().startswith("//~") and not line.startswith("//~"):
            yield Fault(number, "an erased line is marked at its start")
