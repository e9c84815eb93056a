"""The pages of the index as Markdown: one for each crate, and one that lists them."""
import os
import re

from . import edit_places, items
from .crate import Crate, read_text
from .definitions import Definitions
from .words import Words

HEAD = """# Index of contracts

Each public function of the proved crates with its contract, the definitions that the contract names, and the edits of the function.
[PROVED.md](../PROVED.md) says what it adds up to. `./build index` makes these pages from the sources, and `./test docs` compares them.

A contract stands between the signature and the body, and is shown as it is written: `requires` says what the caller has shown before the call,
and `ensures` what holds after it. Each of these clauses has a line below, which says what it is about and where the definitions stand that it names.
`ensures*` is about the end of a borrow.

| In a clause | It means |
|---|---|
| `x.old`, `x.new`, `x.now` | a value before the call, after it, and one that is only borrowed |
| `v.items` | the elements of a `Vec` |
| `IfOk r P`, `IfErr r P` | P holds of the value, or of the error, if r is `Ok`, or an error |
| `OnOk r Q`, `OnErr r Q` | Q holds if r is `Ok`, or an error |
| `IfSome`, `IfNone`, `IsSome`, `IsNone`, `IsTrue` | the same of options and of `bool` |
| `λ a. P` | the function that takes a to P |
| `≡`, `×`, `⊎`, `¬`, `→`, `↔` | equals, and, or, not, implies, exactly if |
| `(n : ℕ) → P`, `(n : ℕ) × P` | P holds of each n, and of some n |

An edit changes a function's body, and the prover has to refuse it: otherwise the contract wouldn't say what the function does. Edits of private
functions, on which the public ones rest, are at the end of a page. `./mutants CRATE` tries them.

| Crate | What it is | Public functions | Edits |
|---|---|---|---|
"""


def crates_of(top):
    """The library crates of crates.txt that others can call, in its order."""
    names = [line.partition("#")[0].partition(":")[0].split()[:1] for line in read_text(f"{top}/crates.txt").split("\n")]
    found = [name[0] for name in names if name and name[0].startswith("rw_")]
    return [name for name in found if os.path.exists(f"{top}/crates/{name}/src/lib.rt")]


def plural(count, word):
    return f"{count} {word}{'' if count == 1 else 's'}"


def cell(text):
    """A text in a table. What isn't code has no tags."""
    parts = re.split(r"(`[^`]*`)", " ".join(text.split()).replace("|", "\\|"))
    return "".join(part if part.startswith("`") else part.replace("<", "&lt;") for part in parts)


def anchor(label):
    """The name by which links lead to the heading of a function."""
    return re.sub(r"[^\w\- ]", "", label.lower()).replace(" ", "-")


def link_to_edit(path):
    return f"[{os.path.basename(path).removesuffix('.edit')}](../../../{path})"


class Page:
    """The page of one crate."""

    def __init__(self, top, crate, all_crates, definitions, words):
        self.top, self.crate, self.all_crates, self.definitions, self.words = top, crate, all_crates, definitions, words
        self.edits = edit_places.by_function(top, crate)
        self.public, self.named, self.seen = crate.public(), set(), {}

    def count_of_edits(self):
        return len({edit for edits in self.edits.values() for edit in edits})

    def text(self):
        crate, name = self.crate, self.crate.name
        lines = [f"# {name}", "", cell(items.first_sentence(crate.files["src/lib.rt"].doc)), ""]
        lines += [f"{plural(len(self.public), 'public function')}, {plural(self.count_of_edits(), 'edit')}. "
                  f"The root is [src/lib.rt](../../../crates/{name}/src/lib.rt), and [README.md](README.md) says how to read this page.", ""]
        for other, names in sorted(crate.foreign.items()):
            lines += [f"It also exports {', '.join(f'`{it}`' for it in sorted(names))} of [{other}]({other}.md).", ""]
        path = None
        for file, label, one in self.public:
            if file.path != path:
                path = file.path
                lines += [f"## {path}", "", f"[{path}](../../../crates/{name}/{path}): {cell(items.first_sentence(file.doc))}", ""]
            lines += self.function(file, label, one)
        return "\n".join([*lines, *self.definition_lines(), *self.inner_lines()]).rstrip("\n") + "\n"

    def function(self, file, label, one):
        """The lines of a function."""
        where = f"crates/{self.crate.name}/{file.path}:{file.text.count(chr(10), 0, one.start) + 1}"
        if self.seen.setdefault(anchor(label), where) != where:
            raise items.Refused(f"{where}: {label} has the heading of {self.seen[anchor(label)]}")
        lines = [f"### `{label}`", ""]
        if one.doc:
            lines += [cell(items.first_sentence(one.doc)), ""]
        lines += ["```rust", one.written, "```", ""]
        if not one.clauses:
            lines += [f"- {self.without_contract(one)}"]
        names = self.imports(file, one)
        lines += [self.clause(clause, names) for clause in one.clauses]
        edits = self.edits.get((file.path, one.start), [])
        return [*lines, f"- Edits: {', '.join(map(link_to_edit, edits)) or 'none'}.", ""]

    def without_contract(self, one):
        name = one.block.trait_name()
        # A trait of this crate is meant before one of that name elsewhere.
        home = next((it for it in (self.crate, *self.all_crates.values()) if name in it.types), None)
        if home:
            trait = f"{home.types[name]}::{one.name}"
            return f"Its contract is that of [`{trait}`]({home.name}.md#{anchor(trait)})."
        return "It has no contract."

    def imports(self, file, one):
        """The definitions that a function's clauses can name: what its file and its `impl` import."""
        shown = f"crates/{self.crate.name}/{file.path}"
        return {**self.definitions.imported(file, shown, file.imports), **self.definitions.imported(file, shown, one.block.imports)}

    def clause(self, clause, names):
        """The line of a clause: what it is about, and the definitions that it names."""
        by_file = {}
        for found in self.definitions.named(clause.body, names):
            self.named.add(found)
            by_file.setdefault(found.path, []).append(f"`{found.name}`")
        shown = [f"{', '.join(them)} of [{path.split('/', 2)[2]}](../../../crates/{path})" for path, them in by_file.items()]
        head = f"{clause.kind} `{clause.name}`" if clause.name else clause.kind
        said = self.words.of(clause, self.definitions.head(clause.body, names))
        return f"- {head}: {cell(said)}{' By ' + '; '.join(shown) + '.' if shown else ''}"

    def definition_lines(self):
        if not self.named:
            return []
        rows = [f"| `{it.name}` | {cell(it.says) or '-'} | [{it.path}](../../../crates/{it.path}) |" for it in sorted(self.named)]
        return ["## Definitions that the contracts name", "", "| Name | What its comment says | File |", "|---|---|---|", *rows, ""]

    def inner_lines(self):
        """The edits of what callers can't name: it has contracts too, on which the public ones rest."""
        rows = []
        public = {(file.path, one.start) for file, _, one in self.public}
        for (path, start), edits in sorted(self.edits.items(), key=lambda it: (it[0][0], it[0][1] or -1)):
            if (path, start) not in public:
                functions = self.crate.files[path].functions if start is not None else []
                one = next((it for it in functions if it.start == start), None)
                name = f"`{inner_name(one)}`" if one else "-"
                rows.append(f"| {name} | [{path}](../../../crates/{self.crate.name}/{path}) | {', '.join(map(link_to_edit, edits))} |")
        return ["## Edits of what is private", "", "| Function | File | Edits |", "|---|---|---|", *rows, ""] if rows else []


def inner_name(one):
    """The name of a function that isn't public."""
    if one.block.trait:
        return f"<{one.block.name} as {one.block.trait}>::{one.name}"
    return f"{one.block.name}::{one.name}" if one.block.name else one.name


def made(top):
    """All pages, as texts by their names."""
    definitions, words = Definitions(top), Words()
    crates = {name: Crate(top, name) for name in crates_of(top)}
    pages, rows = {}, []
    for name, crate in crates.items():
        page = Page(top, crate, crates, definitions, words)
        pages[f"{name}.md"] = page.text()
        says = cell(items.first_sentence(crate.files["src/lib.rt"].doc))
        rows.append((name, says, len(page.public), page.count_of_edits()))
    table = [f"| [{name}]({name}.md) | {says} | {functions} | {edits} |" for name, says, functions, edits in rows]
    total = f"| all | | {sum(row[2] for row in rows)} | {sum(row[3] for row in rows)} |"
    pages["README.md"] = HEAD + "\n".join([*table, total]) + "\n"
    return pages
