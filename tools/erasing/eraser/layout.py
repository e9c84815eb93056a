"""Which source becomes which file, and the lists of modules."""
import os

from . import rust

HEAD = """{docs}
//! `./build source` writes it from tools/erasing/sources.txt.

// Many imports, names and labels are used by contracts and proofs alone, and not every function of a crate is called here.
#![allow(dead_code, unused_imports, unused_labels, unused_variables, clippy::all)]

{modules}"""
LIBRARY = "//! The proved crates of which the library is made, as Rust source: each module is a crate."
PROGRAM = "//! The proved crates of which the program `ttd` is made, as Rust source: each module is a crate."
PAGE = "//! The proved crates that the engine of the page has beside the library's, as Rust source: each module is a crate."


def saturated_of(top):
    """The casts of casts.txt that become calls of the shim: pairs of a function and the cast, by the source's path."""
    found = {}
    with open(f"{top}/tools/erasing/casts.txt", encoding="utf-8") as file:
        rows = [[cell.strip() for cell in line.split("|")] for line in file]
    for row in rows:
        if len(row) == 6 and row[4] == "saturated":
            found.setdefault(f"crates/{row[0]}", set()).add((row[1], row[2]))
    return found


def inlined_of(top):
    """The functions of inlined.txt, by the source's path."""
    with open(f"{top}/tools/erasing/inlined.txt", encoding="utf-8") as file:
        rows = [line.partition(":") for line in file if not line.startswith("#")]
    return {f"crates/{path}": names.split() for path, _, names in rows}


class Crates:
    """The lists of sources.txt, the casts of casts.txt that are saturated, and the functions of inlined.txt."""

    def __init__(self, top):
        lists = {}
        with open(f"{top}/tools/erasing/sources.txt") as file:
            for line in file:
                head, colon, names = line.partition(":")
                if colon and not line.startswith("#"):
                    lists[head] = names.split()
        both, library, console = (lists[name] for name in ("both", "library", "console"))
        self.library, self.program = both + library, both + console + lists["program"]
        self.page = console + lists["page"]
        self.modules = both + library + console + lists["program"] + lists["page"] + lists["tests"]
        self.tests = lists["tests"]
        self.ports = lists["ports"]
        self.saturated = saturated_of(top)
        self.inlined = inlined_of(top)


def place_of(path):
    """The Rust file, below rust/core/src/source/, of a file below crates/."""
    crate, _, inner = path.partition("/src/")
    inner = "mod.rs" if inner == "lib.rt" else inner.removesuffix(".rt") + ".rs"
    return f"{crate}/{inner}"


def sources_of(top, crate):
    """The sources of a crate, as paths below crates/."""
    found = []
    for folder, _, files in os.walk(f"{top}/crates/{crate}/src"):
        found += [os.path.relpath(f"{folder}/{file}", f"{top}/crates") for file in files if file.endswith(".rt")]
    return sorted(found)


def lists(crates):
    """The files that list the modules."""
    files = {"source.rs": (LIBRARY, crates.library), "source/program.rs": (PROGRAM, crates.program), "source/page.rs": (PAGE, crates.page)}
    return {path: HEAD.format(docs=docs, modules="".join(f"pub mod {name};\n" for name in names)) for path, (docs, names) in files.items()}


def made(top):
    """All files of the Rust source by their paths below rust/core/src/, and how often each kind of change was made."""
    crates, counts = Crates(top), {}
    files = lists(crates)
    for crate in crates.modules:
        for path in sources_of(top, crate):
            with open(f"{top}/crates/{path}", encoding="utf-8") as file:
                text = file.read()
            files[f"source/{place_of(path)}"], found = rust.rust(crate, f"crates/{path}", text, crates)
            for kind, count in found.items():
                counts[kind] = counts.get(kind, 0) + count
    return files, counts
