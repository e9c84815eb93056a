"""What callgrind saw of two runs: the functions that the second passes on behalf of the one thing that it has more."""
import re
from collections import Counter

PROVED = re.compile(r"/(rw_\w+)/(.*)\.rs$")
CRATE = re.compile(r"/rust/src/(?!(?:core/)?(?:shim|source)|bin)(.*\.rs)$")
PARTS = {"LT": "<", "GT": ">", "RF": "&", "BP": "*", "C": ",", "LP": "(", "RP": ")"}


def source_of(file):
    """The file of the repository that a file of the build stands for, or None if it is neither of a proved crate nor of the Rust crate."""
    if found := PROVED.search(file):
        return f"crates/{found[1]}/src/{found[2]}.rt"
    if found := CRATE.search(file):
        return f"rust/src/{found[1]}"
    return None


def plain(symbol):
    """A function's name without its hash, the types of an instance and its closures: these count as the function that they are written in."""
    rest, parts = symbol.removeprefix("_ZN"), []
    while found := re.match(r"\d+", rest):
        end = found.end() + int(found[0])
        parts.append(rest[found.end():end])
        rest = rest[end:]
    if not parts:
        return symbol
    parts = parts[:-1] if re.fullmatch(r"h[0-9a-f]{16}", parts[-1]) else parts
    name = "::".join(part[1:] if part.startswith("_$") else part for part in parts)
    name = re.sub(r"\$(u[0-9a-f]+|[A-Z]+)\$", lambda it: PARTS.get(it[1]) or chr(int(it[1][1:], 16)), name.replace("..", "::"))
    return name.split("::{{closure}}")[0]


class Trace:
    """The instructions of a run, by context: a function with its callers, nearest first."""

    def __init__(self, path):
        self.spent, self.files, self.names = Counter(), {}, {"fl": {}, "fn": {}}
        file = context = ""
        is_call = False
        with open(path, encoding="utf-8") as lines:
            for line in lines:
                if found := re.match(r"c?(fl|fi|fe|fn)=\((\d+)\)(?: (.*))?", line):
                    name = self.named("fn" if found[1] == "fn" else "fl", found[2], found[3])
                    if line.startswith("fl="):
                        file = name
                    elif line.startswith("fn="):
                        context = name
                        self.files[context.split("'")[0]] = file
                elif line.startswith("calls="):
                    is_call = True
                elif re.match(r"[\d+*-]", line):
                    # The line after a call has what its callee took.
                    self.spent[context] += 0 if is_call else int(line.split()[1])
                    is_call = False

    def named(self, kind, number, name):
        if name is not None:
            self.names[kind][number] = name
        return self.names[kind][number]


class Walk:
    """The functions that a run passes, with the file of each, which another run passes less often, and the longest chain of their calls."""

    def __init__(self, fewer, more):
        self.functions, self.chain = {}, []
        for context, spent in sorted(more.spent.items()):
            symbols = [it for it in context.split("'") if not it.isdigit()]
            if spent > fewer.spent[context] and source_of(more.files[symbols[0]]):
                self.add(more.files, symbols)

    def add(self, files, symbols):
        """Adds a function that did more, with those that it was called for."""
        chain = {}
        for symbol in reversed(symbols):
            file = source_of(files.get(symbol, ""))
            if file:
                chain[plain(symbol)] = file
        self.functions.update(chain)
        if len(chain) > len(self.chain):
            self.chain = list(chain)

    def files(self):
        return sorted(set(self.functions.values()))
