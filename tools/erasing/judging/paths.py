"""Judges paths: each begins in the shim, in a crate that the file's crate may use, or in the file itself."""
from . import marks

# Crates that come with rustc. Rattle's std isn't Rust's, so a path to one of these means something else.
OF_RUST = ("std", "core", "alloc", "proc_macro", "test")
# Crates of the kit for which there is nothing in the shim.
OF_THE_KIT = ("anyhow", "thiserror")


def begins(code, i):
    """Whether token `i` is the first of a path with more than one word."""
    if code.kind(i) != "word" or not code.has(i + 1, "::"):
        return False
    return not (code.has(i - 1, "::") and (code.kind(i - 2) == "word" or code.has(i - 2, ">")))


def of_crate(code, i, crates, crate):
    """Why the path `crate::` at token `i` isn't allowed, or None."""
    if code.has(i + 2, "shim", "::"):
        return None
    if not code.has(i + 2, "source", "::") or not code.has(i + 5, "::"):
        return "`crate::` isn't followed by `source::`, a crate and a name in it, or by `shim::`"
    if code.text(i + 4) not in crates.below(crate):
        return f"{crate} may not use {code.text(i + 4)}"
    return None


def judge(code, crates, crate):
    """The faults of the paths of a file of this crate."""
    for i in range(len(code)):
        line, text = code.tokens[i].line, code.text(i)
        if code.has(i, "::") and not (code.kind(i - 1) == "word" or code.has(i - 1, ">") or code.has(i + 1, "<")):
            yield marks.Fault(line, "a path that begins with `::`")
        elif begins(code, i) and text in (*OF_RUST, *OF_THE_KIT, *crates.ports, *crates.all()):
            yield marks.Fault(line, f"a path that begins with `{text}`")
        elif begins(code, i) and text == "crate" and (why := of_crate(code, i, crates, crate)):
            yield marks.Fault(line, why)
