"""Who stands on a crate, by crates.txt, and whether its root says so."""
import os
import re

LINE = re.compile(r"^//! What stands on it: (.*)$", re.M)
NAME = re.compile(r"`((?:rw|test|example)_\w+)`")


def uses(top):
    """The crates that each crate of crates.txt names."""
    with open(f"{top}/crates.txt", encoding="utf-8") as file:
        lines = [line.split("#")[0].partition(":") for line in file]
    named = {head.split()[0]: rest.split() for head, _, rest in lines if rest}
    return {crate: [it for it in its if it in named] for crate, its in named.items()}


def below(crate, used):
    """All that a crate stands on."""
    return set().union(*({it} | below(it, used) for it in used[crate]))


def standing(top):
    """Which crates stand on each crate with none between."""
    used = uses(top)
    return {crate: {it for it in used if crate in used[it] and not any(crate in below(other, used) for other in used[it])} for crate in used}


def wrong(top):
    """The roots that don't say who stands on their crate, or name others."""
    found = []
    for crate, wanted in standing(top).items():
        root = next(it for it in (f"crates/{crate}/src/lib.rt", f"crates/{crate}/src/main.rt") if os.path.exists(f"{top}/{it}"))
        with open(f"{top}/{root}", encoding="utf-8") as file:
            said = LINE.findall(file.read())
        if len(said) != 1 or set(NAME.findall(said[0])) != wanted:
            found.append(f"{root}: it says {said}, and on it stand {sorted(wanted)}")
    return found
