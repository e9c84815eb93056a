"""A revision's statements: each public function with its clauses, each model of a type, and each definition of specs/."""
import dataclasses
import os
import re
import subprocess
import tempfile

from index.crate import Crate, read_text
from index.items import Refused

from . import specs

LIST = re.compile(r"(?:ghost )?use Rattle\.([\w.]+)\.\{(.*)\};?", re.S)
ALIAS = re.compile(r"(?:ghost )?use Rattle\.([\w.]+) as (\w+);?")
WORD = re.compile(r"(?<![\w.\-])[^\W\d][\w\-]*(?:\.[^\W\d][\w\-]*)?")
# Where the clauses of a function begin.
CLAUSES = re.compile(r"\s(?=(?:requires|ensures)\b)")


@dataclasses.dataclass(frozen=True)
class Statement:
    """What a revision says under one name. `parts` are a function's signature and its clauses, or else the one text. `names` has, for each word that
    means a definition of this repository, the crate and the name of that definition, and its file below the crate's folder, without the ending.
    """

    kind: str
    crate: str
    name: str
    path: str
    parts: tuple
    names: tuple

    @property
    def key(self):
        return self.kind, self.crate, self.name


def folded(text):
    return " ".join(text.split())


def statements(top, revision):
    """The statements of a revision by their keys, or those of the checkout if it is None."""
    if revision is None:
        return of_folder(top)
    with tempfile.TemporaryDirectory() as folder:
        packed = subprocess.run(["git", "-C", top, "archive", revision, "crates"], capture_output=True, check=False)
        if packed.returncode != 0:
            raise Refused(f"{revision}: {packed.stderr.decode().strip()}")
        subprocess.run(["tar", "-x", "-C", folder], input=packed.stdout, check=True)
        try:
            return of_folder(folder)
        except Refused as why:
            raise Refused(f"{revision}: {why}") from why


def of_folder(top):
    """The statements of the libraries in a folder with crates/, by their keys."""
    crates = sorted(it for it in os.listdir(f"{top}/crates") if it.startswith("rw_"))
    found = {}
    for crate in crates:
        rows = [*definitions(top, crate, crates)]
        if os.path.exists(f"{top}/crates/{crate}/src/lib.rt"):
            rows += promises(Crate(top, crate), crates)
        for row in rows:
            key = row.key
            while key in found:
                # Two of a name in one crate are told apart by their files, or else by their order there.
                key = (*key, row.path)
            found[key] = row
    return found


def definitions(top, crate, crates):
    """The statements of a crate's specs/, but for the lists of files."""
    for folder, _, files in sorted(os.walk(f"{top}/crates/{crate}/specs")):
        for file in sorted(it for it in files if it.endswith(".antt")):
            path = os.path.relpath(f"{folder}/{file}", f"{top}/crates/{crate}")
            imports, found = specs.read(read_text(f"{folder}/{file}"))
            meanings = {**{name: (crate, name, path.removesuffix(".antt")) for name, _ in found}, **imported(imports, crates)}
            for name, text in found:
                yield Statement("definition", crate, name, path, (text,), named(text, meanings))


def promises(crate, crates):
    """The public functions of a crate, and what its blocks say for contracts alone: models, and what a trait asks for and is given."""
    for file, name, one in crate.public():
        signature = folded(CLAUSES.split(one.written, maxsplit=1)[0])
        clauses = [folded(f"{it.kind} {it.name} {{ {it.body} }}") for it in one.clauses]
        meanings = imported([*file.imports, *one.block.imports], crates)
        yield Statement("function", crate.name, name, file.path, (signature, *clauses), named(" ".join(clauses), meanings))
    for path, file in sorted(crate.files.items()):
        for block, text in file.ghosts:
            owner = f"{block.name} as {block.trait}" if block.trait else block.name
            name = f"{owner}: {re.split(r'[ :=]', text.removeprefix('ghost '))[0]}"
            meanings = imported([*file.imports, *block.imports], crates)
            yield Statement("model", crate.name, name, path, (folded(text),), named(text, meanings))


def imported(imports, crates):
    """For each name that imports bring of this repository's crates, the crate, its name there and its file. The name of a whole file ends in a dot."""
    meanings = {}
    for text in imports:
        found, alias = LIST.fullmatch(folded(text)), ALIAS.fullmatch(folded(text))
        if not (found or alias):
            continue
        crate, *route = (found or alias)[1].split(".")
        if crate not in crates:
            continue
        if alias:
            # Variants have their type's name before their own.
            meanings[f"{alias[2]}."] = (crate, route[-2] + "." if route[-1] == "TheVariants" else "", "/".join(route))
            continue
        for part in found[2].split(","):
            own, _, new = part.strip().partition(" as ")
            meanings[new or own] = (crate, own, "/".join(route))
    return meanings


def named(text, meanings):
    """The words of a text that mean something of this repository, each with what it means."""
    found = {}
    for word in WORD.findall(text):
        prefix, dot, last = word.partition(".")
        if prefix in meanings:
            found[prefix] = meanings[prefix]
        elif dot and f"{prefix}." in meanings:
            crate, before, path = meanings[f"{prefix}."]
            found[word] = (crate, before + last, path)
    return tuple(sorted(found.items()))
