"""The lists of sources.txt, and which source belongs to which Rust file."""
import os
import typing


class Pair(typing.NamedTuple):
    """A Rust file, the source that it is made of, and their crate."""

    crate: str
    rust: str
    source: str

    def name(self):
        """The source's path below crates/."""
        return self.source.rpartition("/crates/")[2]


def read(path):
    with open(path, encoding="utf-8", newline="") as file:
        return file.read()


def files_below(folder, ending):
    """The files of a folder with this ending, as paths from it without the ending."""
    return {os.path.relpath(f"{at}/{name}", folder).removesuffix(ending)
            for at, _, names in os.walk(folder) for name in names if name.endswith(ending)}


class Crates:
    """Which crates are Rust source too. `both` are in the library, the program and the page, `console` in the program and the page, `tests` only in
    tests, and `ports` are modules of the shim.

    `inlined` are the functions of inlined.txt, by the source's path below crates/.
    """

    def __init__(self, top):
        self.top = top
        lines = [line.split() for line in read(f"{top}/tools/erasing/sources.txt").split("\n")]
        heads = ("both", "library", "console", "program", "page", "tests", "ports")
        lists = {words[0]: words[1:] for words in lines if words and words[0].removesuffix(":") in heads}
        self.both, self.library, self.console, self.program, self.page, self.tests, self.ports = (lists[f"{name}:"] for name in heads)
        hints = [line.partition(":") for line in read(f"{top}/tools/erasing/inlined.txt").split("\n") if line and not line.startswith("#")]
        self.inlined = {path: names.split() for path, _, names in hints}

    def all(self):
        return self.both + self.library + self.console + self.program + self.page + self.tests

    def modules(self):
        """The crates of each list of modules, by the list's path below rust/core/src/."""
        library = self.both + self.library
        return {
            "source.rs": library, "source/program.rs": self.both + self.console + self.program,
            "source/page.rs": self.console + self.page}

    def strangers(self):
        """What isn't allowed to be there: a crate that the repository doesn't prove, and a file of Rust source of no crate."""
        proved = {line.partition(":")[0].split()[0] for line in read(f"{self.top}/crates.txt").split("\n") if line and not line.startswith("#")}
        for crate in self.all():
            if crate not in proved:
                yield f"crates.txt: {crate} isn't in it, so nothing proves it"
        for name in sorted(files_below(f"{self.top}/rust/core/src/source", "")):
            if name not in ("program.rs", "page.rs") and (name.partition("/")[0] not in self.all() or not name.endswith(".rs")):
                yield f"rust/core/src/source/{name}: it is of no crate"

    def below(self, crate):
        """The crates that a crate may name: itself, and those before it of the library, of the program, of the page, or of the program and the tests."""
        alone = next((part for part in (self.library, self.program, self.page) if crate in part), self.tests)
        order = self.both + ([] if alone is self.library else self.console) + alone
        return order[: order.index(crate) + 1]

    def pairs(self):
        """Each pair of which one file is there at least."""
        found = []
        for crate in self.all():
            rust, source = f"{self.top}/rust/core/src/source/{crate}", f"{self.top}/crates/{crate}/src"
            names = {("lib" if name == "mod" else name) for name in files_below(rust, ".rs")} | files_below(source, ".rt")
            found += [Pair(crate, f"{rust}/{'mod' if name == 'lib' else name}.rs", f"{source}/{name}.rt") for name in sorted(names)]
        return found
