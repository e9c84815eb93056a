"""Judges files, and a checkout."""
import itertools
import os
import sys

from . import additions, casts, contracts, crates, forms, lists, marks, paths, pieces, tokens

sys.path.insert(0, os.path.join(os.path.dirname(os.path.realpath(__file__)), ".."))

import restoring


def judge_blocks(lines):
    """The faults of runs of erased lines, each of which has to be whole contracts."""
    at = 0
    for kind, run in itertools.groupby(lines, key=lambda line: line.kind):
        run = list(run)
        before = lines[at - 1].text.lstrip() if at else ""
        at += len(run)
        if kind != "erased":
            continue
        text = "\n".join(line.text for line in run)
        try:
            if contracts.block(text) and before.startswith("///"):
                yield marks.Fault(run[0].number, "the doc comments above are of an erased item, but aren't erased")
        except contracts.Unread as why:
            yield marks.Fault(run[0].number + text.count("\n", 0, why.place), f"erased without being a contract: {why.why}")


def judge_marks(rust):
    """The faults of what is erased."""
    lines = marks.lines(rust)
    yield from marks.misplaced(tokens.tokens(rust))
    yield from marks.unmarked(rust)
    yield from judge_blocks(lines)
    for line in lines:
        if line.kind == "kept":
            yield from pieces.judge_line(line)


def code_of(rust):
    """The code of a file that is its source's too: neither erased nor added."""
    return tokens.Code(tokens.tokens("\n".join(line.text if line.kind == "kept" else "" for line in marks.lines(rust))))


def judge_file(rust, source, pair, known):
    """The faults of one file of the Rust source, whose text is `rust`. `known` are the crates."""
    if restoring.restored(rust, pair.crate, known.ports) != source:
        yield marks.Fault(1, f"without its marks this isn't crates/{pair.name()}")
    yield from judge_marks(rust)
    code = code_of(rust)
    yield from additions.judge(marks.lines(rust), code, source, f"crates/{pair.name()}", known.inlined.get(pair.name(), ()), pair.crate in known.tests)
    yield from paths.judge(code, known, pair.crate)
    yield from forms.judge(code)


def judge_casts(top, files):
    """The faults of casts, and of the table of them, as texts. `files` are the pairs of which both files are there."""
    table = casts.Table(crates.read(f"{top}/tools/erasing/casts.txt"))
    sources = {pair.name(): crates.read(pair.source) for pair in files}
    codes = {pair.name(): code_of(crates.read(pair.rust)) for pair in files}
    for pair in files:
        for fault in casts.judge_file(codes[pair.name()], pair.name(), table):
            yield f"{os.path.relpath(pair.rust, top)}:{fault.line}: {fault.why}"
    for fault in casts.judge_table(table, sources, codes):
        yield f"tools/erasing/casts.txt:{fault.line}: {fault.why}"


def judge_lists(top, known):
    """The faults of the lists of modules, as texts."""
    for path, modules in known.modules().items():
        why = lists.judge(crates.read(f"{top}/rust/core/src/{path}"), modules) if os.path.exists(f"{top}/rust/core/src/{path}") else "it isn't there"
        if why:
            yield f"rust/core/src/{path}: {why}"


def judge(top):
    """The faults of a checkout, as texts with file and line, and how many files were judged."""
    known = crates.Crates(top)
    found, files = [*known.strangers(), *judge_lists(top, known)], []
    for pair in known.pairs():
        missing = [path for path in (pair.rust, pair.source) if not os.path.exists(path)]
        if missing:
            found.append(f"{os.path.relpath(missing[0], top)}: it isn't there")
            continue
        files.append(pair)
        faults = judge_file(crates.read(pair.rust), crates.read(pair.source), pair, known)
        found += [f"{os.path.relpath(pair.rust, top)}:{fault.line}: {fault.why}" for fault in sorted(set(faults))]
    return found + list(judge_casts(top, files)), len(files)
