"""Finds what has no meaning in Rust: contracts, and the few words of Rattle that Rust says in another way."""
import re

from . import errors

# An `impl Drop` whose body only takes the value apart, which Rust does by itself.
TAKEN_APART = re.compile(r"\{\s*fn drop\(self\)\s*\{\s*let \w+ ?[({][\w\s,:.]*[)}] = self;\s*\}\s*\}")
COPY = r"#\[derive\([^)]*\bCopy\b[^)]*\)\]\s*(?:pub(?:\([\w ]+\))? )?(?:enum|struct) "


def clause(source, i, changes):
    """`requires name { .. }` and `ensures name { .. }`, with or without a name."""
    body = i + 1
    while source.text_at(body) == "*" or source.code[body].kind == "word":
        body += 1
    if not source.has(body, "{"):
        return i + 1
    end = source.close_of(body)
    changes.erase("requires and ensures", i, end)
    return end + 1


def ghost(source, i, changes):
    """`ghost use ..;`, a ghost field up to its comma, and a ghost member up to its semicolon."""
    first = i - 1 if source.has(i - 1, "pub") else i
    if source.has(i + 1, "use"):
        end = source.next_of(i, ";")
        changes.erase("ghost use", first, end)
        return end + 1
    end = source.next_of(i, ";,}")
    if source.has(end, "}"):
        end -= 1
    changes.erase_item("ghost members", first, end)
    return end + 1


def function(source, i, changes):
    """`fn fmt<W: fmt::Write>`: the writer is a type in Rattle, and Rust's `Formatter` hides it."""
    if not source.has(i + 1, "fmt", "<"):
        return i + 1
    end = source.next_of(i + 2, ">")
    changes.erase("the writer of fmt", i + 2, end)
    return end + 1


def formatter(source, i, changes):
    """`Formatter<W>`."""
    if not (source.has(i + 1, "<") and source.has(i + 3, ">")):
        return i + 1
    changes.erase("the writer of fmt", i + 1, i + 3)
    return i + 4


def attribute(source, i, changes):
    """`#[tactic(..)]`, `#[cycle(..)]`, `#[error(..)]`, and the derives `Drop` and `Error`."""
    bracket = i + 2 if source.has(i + 1, "!") else i + 1
    end = source.close_of(bracket)
    name = source.text_at(bracket + 1)
    if name in ("tactic", "cycle"):
        changes.erase("tactics", i, end)
    elif name == "error":
        changes.erase("texts of errors", i, end)
    elif name == "derive":
        derive(source, i, end, changes)
    return end + 1


def derive(source, i, end, changes):
    """Erases `Drop` and `Error` from `#[derive(..)]`, or all of it if nothing else is in it. The attribute's tokens are `i` to `end`."""
    names = [k for k in range(i + 4, end - 1) if source.code[k].kind == "word"]
    gone = [k for k in names if source.text_at(k) in ("Drop", "Error")]
    if any(source.has(k, "Error") for k in gone):
        changes.tail += errors.impls(source, end + 1)
        changes.count("Display and Error of errors")
    if len(gone) == len(names):
        changes.erase("derives", i, end)
        return
    for k in gone:
        # With the comma before it, or the one after it where it is the first.
        first = k if k == names[0] else k - 1
        changes.erase("derives", first, first + 1)


def impl(source, i, changes):
    """An `impl` of a trait that is a contract alone, or that Rust has in another form."""
    body = source.next_of(i, "{;")
    head = [source.text_at(k) for k in range(i, body)]
    if source.has(body, ";") or "for" not in head:
        return i + 1
    place = i + head.index("for")
    end = source.close_of(body)
    trait = source.text_at(place - 1)
    if trait == "Model":
        changes.erase_item("impl Model", i, end)
    elif trait == "Drop":
        if not TAKEN_APART.fullmatch(source.between(body, end)):
            source.refuse(i, "an `impl Drop` with code of its own, which Rust would run elsewhere")
        changes.erase_item("impl Drop", i, end)
    elif trait == "Clone":
        return clone(source, (i, place, body, end), changes)
    else:
        return i + 1
    return end + 1


def clone(source, places, changes):
    """`impl Clone`, whose `clone` returns a `Result` in Rattle.

    It becomes an `impl` of the shim's trait. Where the type is `Copy`, whose values Rust copies by its own `Clone`, it is replaced by that.
    """
    i, place, body, end = places
    if not re.search(COPY + source.text_at(place + 1) + r"\b", source.text):
        changes.put_before("impl Clone", place - 1, "crate::shim::fallible::")
        return i + 1
    head = source.between(i, body - 1)
    changes.erase_item("impl Clone", i, end)
    changes.tail += [f"{head} {{", "    fn clone(&self) -> Self {", "        *self", "    }", "}"]
    return end + 1


def use(source, i, changes):
    """The imports of `Model`, and of the derive `Error`."""
    if not (source.has(i, "use", "std", "::", "marker", "::", "Model") or source.has(i, "use", "thiserror")):
        return i + 1
    end = source.next_of(i, ";")
    changes.erase("imports", i, end)
    return end + 1


def to_vec(source, i, changes):
    """`slice.to_vec(alloc)`: Rust's slices have a method of this name, without the allocator."""
    if not (source.has(i - 1, ".") and source.has(i + 1, "(", "alloc", ")")):
        return i + 1
    changes.erase("to_vec", i, i)
    changes.put_before("to_vec", i + 1, "try_to_vec")
    return i + 1


def drop_bound(source, i, changes):
    """The bound `Drop`, which every type of Rust meets."""
    if source.has(i - 1, ":") and source.has(i + 1, "+"):
        changes.erase("bounds Drop", i, i + 1)
    elif source.text_at(i - 1) in (":", "+"):
        changes.erase("bounds Drop", i - 1, i)
    return i + 1


def saturated(source, i, changes):
    """`n as usize` of a number that nothing bounds: on a target where it doesn't fit, the shim makes it an index past every list."""
    if not source.has(i + 1, "usize") or (source.function_at(i), f"{source.text_at(i - 1)} as usize") not in source.saturated:
        return i + 1
    changes.put_before("saturated casts", i - 1, "crate::shim::saturated(")
    changes.put_before("saturated casts", i, ")")
    changes.erase("saturated casts", i, i + 1)
    return i + 2


STEPS = {"as": saturated, "requires": clause, "ensures": clause, "ghost": ghost, "fn": function, "Formatter": formatter, "#": attribute, "impl": impl,
         "use": use, "to_vec": to_vec, "Drop": drop_bound}


def find(source, changes):
    """Goes through the tokens once. Each step handles what begins at a token, and returns the next token to look at."""
    i = 0
    while i < len(source.code):
        step = STEPS.get(source.text_at(i))
        i = step(source, i, changes) if step else i + 1
