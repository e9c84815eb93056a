"""Reads what is erased: it has to be contracts, whole ones, and nothing else."""
import re

SPACE = r"[ \t]*(?:\n[ \t]*)?"
TYPES = r"(?:<(?:[^<>{}()]|<[^<>{}()]*>|->)*>)?"
DOCS = re.compile(r"(?:///[^\n]*\n[ \t]*)+")
CLAUSE = re.compile(r"(?:requires|ensures\*?)(?: \w+)? \{")
GHOST_USE = re.compile(r"ghost use [^;{}]*(?:\{[^;{}]*\})?;")
GHOST_MEMBER = re.compile(r"(?:pub )?ghost \w+(?=:| =)")
ATTRIBUTE = re.compile(r"#!?\[(?:tactic|cycle|error)\(")
WHOLE = re.compile(r"#\[inline\(never\)\]|#\[derive\((?:Drop|Error|Drop, Error|Error, Drop)\)\]|use std::marker::Model;|use thiserror::Error;")
IMPL_MODEL = re.compile(r"impl" + TYPES + r" Model for \w+" + TYPES + r"(?: where [^{}]*)? \{")
IMPL_DROP = re.compile(r"impl" + TYPES + r" Drop for \w+" + TYPES + r" \{\s*fn drop\(self\) \{\s*let \w+ ?[({][\w\s,:.]*[)}] = self;\s*\}\s*\}")
IMPL_CLONE = re.compile(r"impl" + TYPES + r" Clone for \w+" + TYPES + r" \{")
CLONE = re.compile(r"\s*fn clone\(&self\) -> Result<Self, AllocError> \{\s*Ok\(\*self\)\s*\}\s*\}")
PAIRS = {")": "(", "]": "[", "}": "{"}


class Unread(Exception):
    """What isn't a contract: its place in the text, and why."""

    def __init__(self, place, why):
        super().__init__(why)
        self.place, self.why = place, why


def closed(text, i):
    """The place after the bracket that closes the one at `i`. Brackets in strings don't count."""
    stack, start = [], i
    while i < len(text):
        if text[i] == '"':
            i = end_of_string(text, i)
        elif text.startswith("//", i) or text.startswith("--", i):
            raise Unread(i, "a comment in a contract")
        elif text[i] in "([{":
            stack.append(text[i])
        elif text[i] in PAIRS and stack.pop() != PAIRS[text[i]]:
            raise Unread(i, "brackets that don't match")
        i += 1
        if not stack:
            return i
    raise Unread(start, "a bracket that isn't closed")


def end_of_string(text, i):
    """The place of the quotation mark that closes the one at `i`."""
    found = re.compile(r'"(?:\\.|[^"\\])*"', re.S).match(text, i)
    if not found:
        raise Unread(i, "a string that isn't closed")
    return found.end() - 1


def member(text, i):
    """The place after a ghost member or field: its `;` or `,`, or the end of the text where it is the last field of a type."""
    start, i = i, GHOST_MEMBER.match(text, i).end()
    while i < len(text):
        if text[i] in ";,":
            return i + 1
        if text[i] in ")]}":
            raise Unread(i, "a bracket that isn't opened")
        i = closed(text, i) if text[i] in "([{" else i + 1
    if text[start:].count("{") == 0:
        raise Unread(start, "a ghost member without an end")
    return i


def after_space(text, i):
    """The place after spaces and at most one end of a line."""
    return re.compile(SPACE).match(text, i).end()


def members(text, i):
    """Reads ghost members, with `ghost use` among them, up to something else, and returns its place."""
    while True:
        at = re.compile(r"\s*").match(text, i).end()
        docs = DOCS.match(text, at)
        start = docs.end() if docs else at
        if found := GHOST_USE.match(text, start):
            i = found.end()
        elif GHOST_MEMBER.match(text, start):
            i = member(text, start)
        else:
            return i


def impl(text, i):
    """The place after an `impl` that is a contract as a whole, or None where it isn't one."""
    if found := IMPL_DROP.match(text, i):
        return found.end()
    if found := IMPL_MODEL.match(text, i):
        end = re.compile(r"\s*\}").match(text, members(text, found.end()))
        if not end:
            raise Unread(i, "an `impl Model` with something else than ghost members")
        return end.end()
    if found := IMPL_CLONE.match(text, i):
        end = CLONE.match(text, members(text, found.end()))
        if not end:
            raise Unread(i, "an `impl Clone` that doesn't return `*self`")
        return end.end()
    return None


def one(text, i):
    """The place after the contract that begins at `i`, and whether it is an item, to which the doc comments above it belong."""
    if CLAUSE.match(text, i):
        return closed(text, CLAUSE.match(text, i).end() - 1), False
    if found := GHOST_USE.match(text, i) or WHOLE.match(text, i):
        return found.end(), False
    if found := ATTRIBUTE.match(text, i):
        return closed(text, text.index("[", i)), False
    if GHOST_MEMBER.match(text, i):
        return member(text, i), True
    if end := impl(text, i):
        return end, True
    raise Unread(i, "no contract: " + text[i : i + 60].split("\n")[0])


def block(text):
    """Reads a whole erased block, and returns whether its first contract is an item without doc comments in the block."""
    i, is_bare = after_indent(text), None
    while True:
        docs = DOCS.match(text, i)
        end, is_item = one(text, docs.end() if docs else i)
        if docs and not is_item:
            raise Unread(i, "doc comments of something that isn't erased")
        if is_bare is None:
            is_bare = is_item and not docs
        if end == len(text):
            return is_bare
        i = after_space(text, end)
        if i == len(text):
            raise Unread(end, "space at the end of what is erased")


def after_indent(text):
    return re.compile(r"[ \t]*").match(text).end()
