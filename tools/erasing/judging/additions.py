"""The lines that the Rust has besides those of its source: which they have to be, and where they have to stand.

A comment names the source. An import has the shim's names in place of Rattle's prelude. A function may have a hint above it that rustc inlines
it, which changes no meaning. At the end stand the `impl` blocks that the derive `Error` makes, and Rust's `Clone` of a type that is `Copy`.
"""
import re

from . import marks, tokens

SHIM_TYPES = {"AllocGlobal", "Box", "Input", "Print", "String", "Vec"}
SHIM_MACROS = {"format", "vec"}
TEST_METHODS = {"destroy_empty", "insert", "remove"}


def import_of(code, has_slices, is_of_tests):
    """The import of the names of the shim that the code uses, or no line."""
    made = {code.text(i + 1) for i in range(len(code)) if code.text(i) in ("struct", "enum", "trait", "type")}
    names = {token.text for token in code.tokens if token.kind == "word"} & SHIM_TYPES - made
    names |= {code.text(i) for i in range(len(code)) if code.text(i) in SHIM_MACROS and code.has(i + 1, "!")}
    names |= {"SliceExt"} if has_slices else set()
    if is_of_tests and any(code.has(i, ".") and code.text(i + 1) in TEST_METHODS for i in range(len(code) - 1)):
        names.add("VecExt")
    if len(names) == 1:
        return [f"use crate::shim::{names.pop()};"]
    return [f"use crate::shim::{{{', '.join(sorted(names))}}};"] if names else []


def message(code, i):
    """The text of the `#[error(..)]` attribute at token `i`, and the number of the token after it."""
    return code.text(i + 4), code.close_of(i + 1) + 1


def arm(code, i, path, text):
    """The arm that writes a message for the variant or struct whose name is token `i`."""
    shown = sorted(set(re.findall(r"\{(\w+)\}", text)))
    if code.has(i + 1, "{"):
        fields = " { " + ", ".join([*shown, ".."]) + " }"
    elif code.has(i + 1, "("):
        last = max([int(name) for name in shown], default=-1)
        fields = "(" + ", ".join([f"f{n}" if str(n) in shown else "_" for n in range(last + 1)] + [".."]) + ")"
        text = re.sub(r"\{(\d+)\}", r"{f\1}", text)
    else:
        fields = ""
    return f"            {path}{code.text(i)}{fields} => write!(f, {text}),"


def arms_of(code, i, keyword):
    """One arm for each `#[error(..)]` from token `i` on: those above the struct at `keyword`, or those in its enum's body."""
    name = code.text(keyword + 1)
    first, end = (keyword, code.close_of(code.next_of(keyword, "{"))) if code.has(keyword, "enum") else (i, keyword)
    found = []
    for k in range(first, end):
        if code.has(k, "#", "[", "error", "("):
            text, after = message(code, k)
            found.append(arm(code, after, f"{name}::", text) if code.has(keyword, "enum") else arm(code, keyword + 1, "", text))
    return found


def display(code, i):
    """What the derive `Error` whose attribute begins at token `i` makes."""
    keyword = next(k for k in range(i, len(code)) if code.text(k) in ("enum", "struct"))
    name, params = code.text(keyword + 1), f"<{code.text(keyword + 3)}>" if code.has(keyword + 2, "<") else ""
    bounds = params.replace(">", ": core::fmt::Debug>")
    return [f"impl{params} core::fmt::Display for {name}{params} {{",
            "    fn fmt(&self, f: &mut core::fmt::Formatter<'_>) -> core::fmt::Result {", "        match self {",
            *arms_of(code, i, keyword), "        }", "    }", "}", f"impl{bounds} core::error::Error for {name}{params} {{}}"]


def copy(code, i):
    """Rust's `Clone` in place of the `impl Clone` at token `i`, if its body says `*self`."""
    body = code.next_of(i, "{")
    head = " ".join(token.text for token in code.tokens[i:body])
    found = re.fullmatch(r"impl (?:< (\w+) : (\w+) > )?Clone for (\w+)(?: < \w+ >)?", head)
    if not found or not any(code.has(k, "Ok", "(", "*", "self", ")") for k in range(body, code.close_of(body))):
        return []
    params, shown = (f"<{found[1]}: {found[2]}>", f"<{found[1]}>") if found[1] else ("", "")
    return [f"impl{params} Clone for {found[3]}{shown} {{", "    fn clone(&self) -> Self {", "        *self", "    }", "}"]


def tail_of(code):
    """The lines at the end of a file whose source has this code."""
    found = []
    for i in range(len(code)):
        if code.has(i, "#", "[", "derive") and any(code.has(k, "Error") for k in range(i, code.close_of(i + 1))):
            found += display(code, i)
        elif code.has(i, "impl"):
            found += copy(code, i)
    return found


def after_head(lines):
    """How many lines belong to the comment of the whole file."""
    count = 0
    while count < len(lines) and (lines[count].text.startswith("//!") or lines[count].kind == "erased" and lines[count].text.startswith("#!")):
        count += 1
    return count


def hints(lines, inlined):
    """The hints above functions with these names, by the numbers of the lines where they have to stand."""
    found = {}
    for n, line in enumerate(lines):
        head = re.match(r"( *)(?:pub(?:\([\w ]+\))? )?fn (\w+)", line.text) if line.kind == "kept" else None
        if head and head[2] in inlined:
            found[n - 1] = f"{head[1]}#[inline(always)]"
    return found


def judge(lines, code, source, path, inlined, is_of_tests):
    """The faults of added lines. `code` is the Rust's own, without added lines, `source` and `path` are those of its source, and `inlined` are
    the functions that inlined.txt names. Those of tests may call methods that only these have."""
    has_slices = any(code.has(i, "try_to_vec") for i in range(len(code)))
    head = [f"// From {path}, with its contracts as comments.", *import_of(code, has_slices, is_of_tests)]
    tail = tail_of(tokens.Code(tokens.tokens(source)))
    at, end = after_head(lines), len(lines) - 1
    wanted = dict(zip(range(at, at + len(head)), head)) | dict(zip(range(end - len(tail), end), tail)) | hints(lines, inlined)
    for n, line in enumerate(lines):
        if line.kind == "added" and wanted.get(n) != line.text:
            yield marks.Fault(line.number, f"an added line that isn't allowed here: {line.text}")
        elif n >= at and line.kind == "erased" and line.text.startswith("#!"):
            yield marks.Fault(line.number, "an attribute of the file that stands below the first added line")
        elif line.kind != "added" and n in wanted:
            yield marks.Fault(line.number, f"a line has to be added before this one: {wanted[n]}")
