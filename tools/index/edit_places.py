"""The edits: wrong bodies and definitions that the prover has to refuse, and the functions in which their texts stand."""
import os

from edits import Misfit, pairs_of

from . import items
from .crate import read_text


def edits_of(top, crate):
    """The paths of a crate's edits, by their names."""
    found = []
    for home in (f"crates/{crate}/must-fail", f"tests/mutants/{crate}"):
        if os.path.isdir(f"{top}/{home}"):
            found += [f"{home}/{it}" for it in os.listdir(f"{top}/{home}") if it.endswith(".edit")]
    return sorted(found, key=lambda path: (os.path.basename(path), path))


def places_of(pairs, texts):
    """The places of an edit's texts, as pairs of a file and a place in it as it stands.

    Each pair is applied to the result of those before it, so a place is moved back by what they added.
    """
    texts, moved, places = dict(texts), [], []
    for path, old, new, _ in pairs:
        if path not in texts or texts[path].count(old) != 1:
            raise Misfit(f"its text isn't once in {path}: {old.strip()}")
        at = texts[path].index(old)
        texts[path] = texts[path].replace(old, new)
        place = at
        for other, start, grown in reversed(moved):
            place -= grown if other == path and start < place else 0
        moved.append((path, at, len(new) - len(old)))
        places.append((path, place + len(old) - len(old.lstrip())))
    return places


def function_at(file, place):
    """The function in which a place of a source is, or None."""
    return next((one for one in file.functions if one.start <= place < one.end), None) if file else None


def definitions_of(top, crate, pairs):
    """The texts of an edit's files that aren't sources, by their paths."""
    paths = {path for path, *_ in pairs if path not in crate.files and path.startswith(("specs/", "proofs/"))}
    return {path: read_text(f"{top}/crates/{crate.name}/{path}") for path in paths}


def by_function(top, crate):
    """The paths of the edits for each function of a crate, as pairs of a file's path and the function's first place. Of those in no function, as in
    a definition, the place is None."""
    texts, found = {path: file.text for path, file in crate.files.items()}, {}
    for edit in edits_of(top, crate.name):
        try:
            pairs = pairs_of(read_text(f"{top}/{edit}"))
            if not pairs:
                raise Misfit("it changes nothing")
            places = places_of(pairs, texts | definitions_of(top, crate, pairs))
        except (Misfit, OSError) as why:
            raise items.Refused(f"{edit}:1: {why}") from why
        for path, place in places:
            one = function_at(crate.files.get(path), place)
            listed = found.setdefault((path, one.start if one else None), [])
            if edit not in listed:
                listed.append(edit)
    return found
