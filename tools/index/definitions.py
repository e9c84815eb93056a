"""The definitions that contracts name: in which file they are, and what their comments say."""
import dataclasses
import os
import re

from . import items
from .crate import read_text

LIST = re.compile(r"ghost use ([\w.]+)\.\{(.*)\};", re.S)
ALIAS = re.compile(r"ghost use ([\w.]+) as (\w+);")
# What a comment begins with that is about all that follows.
SECTION = "-- ----"
NAME = re.compile(r"(\S+?)(?: as (\S+))?")
# A name in a clause, with what is behind its dots.
WORD = re.compile(r"(?<![\w.\-])[^\W\d][\w\-]*(?:\.\w+)*")
# The first word of a clause, behind what says of which results it holds.
HEAD = re.compile(r"(?:(?:IfOk|IfErr|IfSome|OnOk|OnErr) result \((?:λ \w+\. )?)?([\w\-]*)")


@dataclasses.dataclass(frozen=True, order=True)
class Definition:
    """A definition: its file below crates/, its name, and what its comment says."""

    path: str
    name: str
    says: str


def parts_of(text):
    """The names of an import's braces. `{[], ◌≡◌}` has two."""
    return [part.strip() for part in " ".join(text.split()).split(",") if part.strip()]


def has_sign(text):
    """Whether a sign that joins two statements stands outside of brackets that are opened in this text."""
    depth = 0
    for letter in text:
        depth += (letter in "([{⟦") - (letter in ")]}⟧")
        if depth < 0:
            return False
        if depth == 0 and letter in "→↔⊎×≡":
            return True
    return False


class Definitions:
    """Finds definitions by the imports of a source."""

    def __init__(self, top):
        self.top, self.texts = top, {}

    def file_of(self, route):
        """The file below crates/ that an import means, or None for one of a library that isn't of this repository."""
        _, crate, *rest = route.split(".")
        if not os.path.isdir(f"{self.top}/crates/{crate}"):
            return None
        folder, ending = (f"{crate}/src", ".rt") if rest[:2] == ["specs", "declared"] else (f"{crate}/specs", ".antt")
        names = rest[2:] if ending == ".rt" else rest[1:]
        for count in range(len(names), 0, -1):
            path = f"{folder}/{'/'.join(names[:count])}{ending}"
            if os.path.isfile(f"{self.top}/crates/{path}"):
                return path
        return "" if names else None

    def imported(self, file, shown_path, imports):
        """What imports bring: for each name in clauses its file and its own name there. Of a file that has a name itself, the name ends in a dot and
        its own name is empty."""
        names = {}
        for text in imports:
            where = f"{shown_path}:{file.text.count(chr(10), 0, file.text.find(text)) + 1}"
            found, alias = LIST.fullmatch(text), ALIAS.fullmatch(text)
            if not (found or alias):
                raise items.Refused(f"{where}: an import in an unknown form")
            path = self.file_of((found or alias)[1])
            if path == "":
                raise items.Refused(f"{where}: no file is meant by {(found or alias)[1]}")
            pairs = [NAME.fullmatch(part) for part in parts_of(found[2])] if found else []
            names.update({f"{alias[2]}.": (path, "")} if alias else {pair[2] or pair[1]: (path, pair[1]) for pair in pairs})
        return {name: place for name, place in names.items() if place[0]}

    def named(self, body, names):
        """The definitions that a clause names, in their order there: those of specs/, and the constants of sources."""
        found = {}
        for word in WORD.finditer(body):
            prefix, dot, last = word[0].partition(".")
            path, own = names.get(prefix) or names.get(prefix + dot) or (None, "")
            if path and self.is_listed(path, own or last):
                found.setdefault((path, own or last), self.definition(path, own or last))
        return list(found.values())

    def head(self, body, names):
        """The predicate that a clause says of its result or of what it changes, where it says no more than that."""
        found = HEAD.match(body)
        word = found[1]
        if not word[:1].isupper() or word not in names or not self.is_listed(*names[word]) or has_sign(body[found.end() :]):
            return None
        return self.definition(*names[word])

    def is_listed(self, path, name):
        """Whether it is a definition of specs/ or a constant, and not a type of Rust or one of its variants."""
        return path.endswith(".antt") or name.isupper()

    def text(self, path):
        if path not in self.texts:
            self.texts[path] = read_text(f"{self.top}/crates/{path}")
        return self.texts[path]

    def definition(self, path, name):
        """A definition with its comment. Raises Refused where the file doesn't have it."""
        lines = self.text(path).split("\n")
        if path.endswith(".rt"):
            head, mark = re.compile(rf"\s*pub (?:const|static) {re.escape(name)}\b"), "///"
        else:
            head, mark = re.compile(rf"\s*(?:abbrev |unfoldable |pub |record |data )+{re.escape(name)}(?=[\s:({{])"), "--"
        places = [k for k, line in enumerate(lines) if head.match(line)]
        if not places:
            raise items.Refused(f"crates/{path}:1: it doesn't define {name}, which a contract names")
        # A field may have the name of a definition, which is indented less.
        at = min(places, key=lambda k: (len(lines[k]) - len(lines[k].lstrip()), k))
        says = self.says(lines, at, mark)
        if path.endswith(".rt"):
            says = f"{says.rstrip('.')}: {lines[at].partition('=')[2].strip().rstrip(';')}"
        return Definition(path, name, says)

    def says(self, lines, at, mark):
        """The comment right above a line."""
        said = []
        while at > 0 and lines[at - 1].strip().startswith(mark) and not lines[at - 1].strip().startswith(SECTION):
            at -= 1
            said.insert(0, lines[at].strip().removeprefix(mark).strip())
        return " ".join(said)
