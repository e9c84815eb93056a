"""Plants by number, and finds out who refuses each."""
import random
import typing

import restoring
from judging import crates, judgement

from . import kinds


class File(typing.NamedTuple):
    """A file of the Rust source, with its lines and its source."""

    pair: crates.Pair
    lines: list
    source: str


class Planted(typing.NamedTuple):
    """A changed file: of which kind, and the text of its Rust and of its source."""

    kind: str
    file: File
    rust: str
    source: str

    def where(self):
        """The first line that differs from the file's."""
        lines = self.rust.split("\n")
        n = next((n for n, (one, other) in enumerate(zip(lines, self.file.lines)) if one != other), len(lines) - 1)
        return f"{self.file.pair.rust.partition('/rust/core/src/')[2]}:{n + 1}: {lines[n]}"


def files_of(lists):
    """The files with more than a few lines of code."""
    found = [File(pair, crates.read(pair.rust).split("\n"), crates.read(pair.source)) for pair in lists.pairs()]
    return [file for file in found if len(kinds.places(file.lines, kinds.is_code)) > 3]


def planted(files, lists, count, seed):
    """Yields `count` changed files, as many of each kind as of another."""
    chance = random.Random(seed)
    made = 0
    while made < count:
        kind = kinds.ALL[made % len(kinds.ALL)]
        file = chance.choice(files)
        lines = kind(file.lines, chance)
        if not lines or lines == file.lines:
            continue
        made += 1
        rust = "\n".join(lines)
        is_in_source = kind in kinds.IN_SOURCE_TOO
        yield Planted(kind.__name__, file, rust, restoring.restored(rust, file.pair.crate, lists.ports) if is_in_source else file.source)


def refused_by(one, lists):
    """Who refuses it: restoring, the judge, or nobody."""
    if restoring.restored(one.rust, one.file.pair.crate, lists.ports) != one.source:
        return "restoring"
    return "the judge" if next(judgement.judge_file(one.rust, one.source, one.file.pair, lists), None) else None
