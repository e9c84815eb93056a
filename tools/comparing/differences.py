"""How the statements of two revisions differ."""
import collections
import dataclasses

KINDS = ("function", "model", "definition")
SAME, MOVED, ADDED, REMOVED, CHANGED = "same", "moved", "added", "removed", "changed"


@dataclasses.dataclass
class Difference:
    """A statement as it was and as it is, one of which may be missing, and the lines that only one of them has, with a sign before each."""

    how: str
    old: object
    new: object
    lines: list
    may_be_weaker: bool

    @property
    def one(self):
        return self.new or self.old


def pairs_of_moved(old, new):
    """The keys of statements that are only in the old revision, each with the key of the only new one of its name, if there is one such pair."""
    gone, come = collections.defaultdict(list), collections.defaultdict(list)
    for those, others, found in ((old, new, gone), (new, old, come)):
        for key in those.keys() - others.keys():
            found[those[key].kind, those[key].name].append(key)
    return {gone[it][0]: come[it][0] for it in gone.keys() & come.keys() if len(gone[it]) == 1 and len(come[it]) == 1}


class Meanings:
    """What names mean: a definition is known by its crate and its name, and by its file too where a crate has two of that name."""

    def __init__(self, old, new, moved):
        self.twice = {key[1:3] for those in (old, new) for key in those if key[0] == "definition" and len(key) > 3}
        self.moved = {key[1:3]: to[1:3] for key, to in moved.items() if key[0] == "definition"}

    def was(self, place):
        """What a name meant, as the new revision calls it."""
        return self.moved.get(place[:2]) or self.now(place)

    def now(self, place):
        crate, name, path = place
        return (crate, path, name) if (crate, name) in self.twice else (crate, name)


def lines_between(old, new, meanings):
    """The parts that only one of two statements has, and names that mean something else."""
    lines = [("-", it) for it in old.parts if it not in new.parts] + [("+", it) for it in new.parts if it not in old.parts]
    now = dict(new.names)
    for word, place in old.names:
        if word in now and meanings.was(place) != meanings.now(now[word]):
            lines.append(("~", f"{word} meant {' '.join(meanings.was(place))} and means {' '.join(meanings.now(now[word]))}"))
    return lines


def is_weaker(kind, lines):
    """Whether these lines may promise less: of a function all but clauses that are added to what it ensures, or dropped from what it requires."""
    harmless = {("function", "+", "ensures"), ("function", "-", "requires")}
    return any((kind, sign, text.split()[0].rstrip("*")) not in harmless for sign, text in lines)


def between(old, new):
    """The differences of two revisions, in the order of their kinds, crates and names."""
    moved = pairs_of_moved(old, new)
    meanings, found = Meanings(old, new, moved), []
    for key, one in old.items():
        to = moved.get(key, key)
        if to not in new:
            found.append(Difference(REMOVED, one, None, [("-", it) for it in one.parts], True))
            continue
        lines = lines_between(one, new[to], meanings)
        is_there = (one.crate, one.path) == (new[to].crate, new[to].path)
        found.append(Difference(CHANGED if lines else SAME if is_there else MOVED, one, new[to], lines, is_weaker(one.kind, lines)))
    for key in new.keys() - old.keys() - set(moved.values()):
        found.append(Difference(ADDED, None, new[key], [("+", it) for it in new[key].parts], False))
    return sorted(found, key=lambda it: (KINDS.index(it.one.kind), it.one.crate, it.one.path, it.one.name))


def told(found):
    """What is said of the differences: how many there are of each kind, and each with its lines."""
    for kind in KINDS:
        counts = collections.Counter(it.how for it in found if it.one.kind == kind)
        yield f"{kind}s: " + ", ".join(f"{counts[how]} {how}" for how in (SAME, MOVED, ADDED, REMOVED, CHANGED))
    for it in found:
        if it.how == SAME:
            continue
        place = f"crates/{it.one.crate}/{it.one.path}"
        was = f", from crates/{it.old.crate}/{it.old.path}" if it.old and it.new and (it.old.crate, it.old.path) != (it.new.crate, it.new.path) else ""
        yield f"{'!' if it.may_be_weaker else ' '} {it.how}: {it.one.kind} {it.one.name}, {place}{was}"
        if it.how != MOVED:
            yield from (f"    {sign} {text}" for sign, text in it.lines)
    weaker = sum(it.may_be_weaker for it in found)
    yield f"{weaker} to look at" if weaker else "no promise is weaker"
