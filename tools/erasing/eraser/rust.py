"""Writes the Rust of a source.

    //~ LINE             a line of the source of which nothing is left
    /*~ .. ~*/           a part of a line that is erased
    /*+*/ .. /*+*/       words that aren't in the source
    .. //+               a line that isn't in the source
    crate::source::X::   `X::` of the source, or `crate::` in the crate X
    crate::shim::        `std::` of the source; crate::shim::X:: is `X::` for a port X
"""
from . import contracts, erasure
from .source import Source

# Names of Rattle's prelude that aren't those of Rust's: types and traits, and macros.
PRELUDE = ("Vec", "String", "Box", "AllocGlobal", "Input", "Print")
MACROS = ("vec", "format")
# Methods of Rattle's vectors that only tests have, by a trait of theirs.
METHODS = ("destroy_empty", "insert", "remove")


def heads(kept, name, crates):
    """The heads of paths that name a crate, as (start, end, what is there in Rust)."""
    found = []
    for n, token in enumerate(kept[:-1]):
        if token.kind != "word" or kept[n + 1].text != "::":
            continue
        if n > 1 and kept[n - 1].text == "::" and (kept[n - 2].kind == "word" or kept[n - 2].text == ">"):
            continue
        if token.text == "crate":
            found.append((token.start, token.end, f"crate::source::{name}"))
        elif token.text == "std":
            found.append((token.start, token.end, "crate::shim"))
        elif token.text in crates.modules:
            found.append((token.start, token.end, f"crate::source::{token.text}"))
        elif token.text in crates.ports:
            found.append((token.start, token.end, f"crate::shim::{token.text}"))
    return found


def names_of_prelude(source, kept, changes, is_of_tests):
    """The names that the shim has in place of those of Rattle's prelude."""
    words = {token.text for token in kept if token.kind == "word"}
    made = {b.text for a, b in zip(kept, kept[1:]) if a.text in ("struct", "enum", "trait", "type")}
    found = {name for name in PRELUDE if name in words and name not in made}
    found |= {a.text for a, b in zip(kept, kept[1:]) if b.text == "!" and a.text in MACROS}
    if "to_vec" in changes.counts:
        found.add("SliceExt")
    if is_of_tests and any(a.text == "." and b.text in METHODS for a, b in zip(kept, kept[1:])):
        found.add("VecExt")
    return sorted(found)


def joined(parts, text):
    """The erased parts in order, joined where only one line's end and spaces are between them."""
    made = []
    for start, end in sorted(parts):
        between = text[made[-1][1] : start] if made else ""
        if made and (start <= made[-1][1] or between.isspace() and between.count("\n") == 1):
            made[-1] = (made[-1][0], max(end, made[-1][1]))
        else:
            made.append((start, end))
    return made


def line_of(line, start, gone, edits):
    """One line of the Rust. `start` is the line's place, `gone` the erased parts that touch it, and `edits` what else changes in it."""
    end = start + len(line)
    inside = [(max(a, start + len(line) - len(line.lstrip())), min(b, end)) for a, b in gone]
    left, at = "", start
    for a, b in inside:
        left += line[at - start : a - start]
        at = b
    if inside and not (left + line[at - start :]).strip():
        return "//~ " + line if line else "//~"
    made, at = "", start
    for a, b, new in sorted([(a, b, f"/*~{line[a - start : b - start]}~*/") for a, b in inside] + edits):
        made += line[at - start : a - start] + new
        at = b
    return made + line[at - start :]


def within(parts, at, end):
    """Takes from the front of `parts` those that end before `at`, and returns those that begin before `end`."""
    while parts and parts[0][1] < at:
        parts.pop(0)
    found = []
    for part in parts:
        if part[0] > end:
            break
        found.append(part)
    return found


def lines_of(source, changes, edits):
    """The lines of the Rust, without those that are added."""
    gone = [part for part in joined(changes.gone, source.text)]
    edits = sorted(edits)
    made, start = [], 0
    for line in source.text.split("\n"):
        end = start + len(line)
        here = [(a, b) for a, b in within(gone, start, end) if a < end and b > start or a <= start and end <= b]
        made.append(line_of(line, start, here, within(edits, start, end)))
        start = end + 1
    return made


def inlined(source, names, lines):
    """The lines with a hint for rustc above each function that has one of the names."""
    for name in names:
        found = [i for i in range(len(source.code)) if source.has(i, "fn", name)]
        if len(found) != 1:
            source.refuse(0, f"inlined.txt names the function {name}, of which there are {len(found)} here")
    hints = {}
    for i in range(len(source.code)):
        if source.has(i, "fn") and source.text_at(i + 1) in names:
            hints[source.text.count("\n", 0, source.code[i].start)] = True
    made = []
    for number, line in enumerate(lines):
        if number in hints:
            # A hint of the source that says the opposite is for Rattle's compiler.
            if made[-1].strip() == "#[inline(never)]":
                made[-1] = f"//~ {made[-1]}"
            made.append(f"{line[: len(line) - len(line.lstrip())]}#[inline(always)] //+")
        made.append(line)
    return made


def after_head(lines):
    """The number of the line that follows the comment of the whole file."""
    place = 0
    while place < len(lines) and (lines[place].startswith("//!") or lines[place].startswith("//~ #!")):
        place += 1
    return place


def rust(name, path, text, crates):
    """The Rust of the source `path`, which has this text, in the crate `name`. Also returns how often each kind of change was made."""
    source = Source(path, text, crates.saturated.get(path, ()))
    changes = erasure.Erasure(source)
    contracts.find(source, changes)
    kept = changes.kept()
    edits = heads(kept, name, crates) + [(at, at, f"/*+*/{words}/*+*/") for at, words in changes.put]
    lines = inlined(source, crates.inlined.get(path, ()), lines_of(source, changes, edits))
    names = names_of_prelude(source, kept, changes, name in crates.tests)
    head = [f"// From {path}, with its contracts as comments."]
    if names:
        head.append(f"use crate::shim::{names[0]};" if len(names) == 1 else f"use crate::shim::{{{', '.join(names)}}};")
    place = after_head(lines)
    lines[place:place] = [f"{line} //+" for line in head]
    # The text ends in a line's end, so its last line is empty.
    lines[-1:-1] = [f"{line} //+" for line in changes.tail]
    return "\n".join(lines), changes.counts
