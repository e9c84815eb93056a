"""A crate: its sources, and which of its functions others can call."""
import os

from . import items


def read_text(path):
    with open(path, encoding="utf-8") as file:
        return file.read()


class Crate:
    """The sources of a library, by their paths below its folder, with the names that its root exports."""

    def __init__(self, top, name):
        self.top, self.name, self.files = top, name, {}
        for folder, _, files in os.walk(f"{top}/crates/{name}/src"):
            for file in sorted(it for it in files if it.endswith(".rt")):
                path = os.path.relpath(f"{folder}/{file}", f"{top}/crates/{name}")
                self.files[path] = items.read(path, f"crates/{name}/{path}", read_text(f"{folder}/{file}"))
        self.declared = {it for file in self.files.values() for it in file.types}
        # The names by which callers know types and functions: a type's name alone, and a function's with its file.
        self.types, self.functions = {}, {}
        # What the root exports of other crates, by their names.
        self.foreign = {}
        self.walk("src/lib.rt", "")

    def refuse(self, path, why):
        raise items.Refused(f"crates/{self.name}/{path}:1: {why}")

    def module(self, path, name):
        """The file of a module that is declared in the file `path`, or None."""
        folder = "src" if path == "src/lib.rt" else path.removesuffix(".rt")
        return next((it for it in (f"{folder}/{name}.rt", f"{folder}/{name}/mod.rt") if it in self.files), None)

    def walk(self, path, prefix):
        """Notes what a public module has for callers."""
        file = self.files[path]
        for name in file.public_types:
            self.types[name] = prefix + name
        for one in file.functions:
            if one.is_public and not one.block.name:
                self.functions[path, one.name] = prefix + one.name
        for route, name in file.exports:
            self.export(path, route, prefix + name)
        for name in file.modules:
            self.walk(self.module(path, name) or self.refuse(path, f"there is no module {name}"), f"{prefix}{name}::")

    def export(self, path, route, name):
        """Notes what `pub use` exports of a module, perhaps by way of another `pub use`, or of another crate."""
        *modules, item = route
        if os.path.isdir(f"{self.top}/crates/{modules[0]}"):
            self.foreign.setdefault(modules[0], []).append(name)
            return
        at = path
        for module in modules:
            at = self.module(at, module) or self.refuse(path, f"there is no module {module} of which {item} is exported")
        file = self.files[at]
        again = [inner for inner, its_name in file.exports if its_name == item]
        if again:
            self.export(at, again[0], name)
        elif item in file.public_types:
            self.types[item] = name
        elif any(one.name == item and not one.block.name for one in file.functions):
            self.functions[at, item] = name
        elif not is_constant(file.text, item):
            self.refuse(path, f"{item} is exported, and {at} doesn't declare it")

    def label(self, path, one):
        """The name by which others call a function, or None if they can't."""
        block = one.block
        if not block.name:
            return self.functions.get((path, one.name))
        if block.kind == "trait" or not block.trait:
            is_open = block.name in self.types and (block.kind == "trait" or one.is_public)
            return f"{self.types[block.name]}::{one.name}" if is_open else None
        if block.trait_name() in self.declared and block.trait_name() not in self.types or block.name in self.declared and block.name not in self.types:
            return None
        return f"<{self.types.get(block.name, block.name)} as {block.trait}>::{one.name}"

    def public(self):
        """The functions for callers, as (file, name, function), file by file and in their order."""
        found = [(file, self.label(path, one), one) for path, file in sorted(self.files.items()) for one in file.functions]
        return [it for it in found if it[1]]

    def inner(self):
        """The other functions, as (file, function)."""
        return [(file, one) for path, file in sorted(self.files.items()) for one in file.functions if not self.label(path, one)]


def is_constant(text, name):
    """Whether a source declares this public constant or alias."""
    return any(f"pub {kind} {name}{sign}" in text for kind in ("const", "type", "static") for sign in ":<= ")
