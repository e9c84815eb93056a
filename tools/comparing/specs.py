"""A file of definitions: its statements with the modules around them, and its imports."""
import re

MODIFIERS = {"abbrev", "unfoldable", "pub", "record", "data"}
COMMENT = re.compile(r"(?:^|\s)--(?=\s|$).*$")
MODULE = re.compile(r"module\b.*\bwhere$")
NAMED = re.compile(r"(?P<name>[^\s:({]+)\s*(?P<sign>[:({]|where\b)?")


def chunks(lines):
    """Lines in pieces: each has a first line, and those that follow and are indented further."""
    found = []
    for line in lines:
        indent = len(line) - len(line.lstrip())
        if found and indent > found[-1][0]:
            found[-1][1].append(line)
        else:
            found.append((indent, [line]))
    return [piece for _, piece in found]


def name_of(head):
    """The name that a piece declares, or None if the piece is an equation of the one before it."""
    words = head.split()
    modified = words[0] in MODIFIERS
    while words and words[0] in MODIFIERS:
        words.pop(0)
    found = NAMED.match(" ".join(words))
    return found["name"] if found and (modified or found["sign"] == ":") else None


def read(text):
    """The imports of a file, and its statements as pairs of a name and its text without comments. A module's parameters are part of each statement."""
    lines = [line for line in (COMMENT.sub("", it).rstrip() for it in text.split("\n")) if line]
    imports, found = [], []
    take(lines, "", imports, found)
    return imports, [(name, " ".join(" ".join(parts).split())) for name, parts in found]


def take(lines, around, imports, found):
    """Adds what stands in these lines. `around` is the head of the module that they are in."""
    for piece in chunks(lines):
        text = " ".join(" ".join(piece).split())
        head = piece[0].strip()
        if head.startswith("use "):
            imports.append(text)
        elif MODULE.match(head):
            take(piece[1:], f"{around}{head} ", imports, found)
        elif not re.match(r"(?:pub )?mod ", head):
            name = name_of(text)
            if name is None and found:
                found[-1][1].append(text)
            else:
                found.append((name or head, [around, text]))
