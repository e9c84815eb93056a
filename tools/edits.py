"""The edits of must-fail/ and tests/mutants/, as `rt must-fail` reads them, and the plants of tests/plants."""
import re

# What makes the form of a body: its statements, branches and exits. An edit that leaves it changes expressions alone.
FORM = re.compile(r";|=>|\b(?:let|if|else|match|for|while|loop|return)\b")


class Misfit(Exception):
    """Why an edit doesn't fit its crate."""


def pairs_of(text):
    """The pairs of an edit: a file, a text that occurs in it once, its replacement, and the replacement's twin or None."""
    pairs, path, old, new = [], "", "", ""
    for line in text.split("\n"):
        word, _, rest = line.partition(" ")
        if word == "file:" and not old:
            path, new = rest.strip(), ""
        elif word == "old:" and path and not old:
            old, new = rest, ""
        elif word == "new:" and old:
            pairs.append((path, old, rest, None))
            old, new = "", rest
        elif word == "twin:" and new:
            pairs.append((*pairs.pop()[:3], rest))
            new = ""
        elif line:
            raise Misfit(f"a line out of place: {line}")
    if old:
        raise Misfit(f"no 'new:' follows 'old: {old}'")
    return pairs


def changes_form(old, new):
    """Whether the prover may refuse a change of a body for its form alone, since stored proofs cite it."""
    return FORM.findall(old) != FORM.findall(new)


def applied(text, old, new, where):
    """A text with another one in the place of one that is there once."""
    found = text.count(old)
    if found != 1:
        raise Misfit(f"in {where} its text stands {found} times, and not once: {old.strip()}")
    return text.replace(old, new)
