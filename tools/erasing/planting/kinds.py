"""The kinds of what is planted. Each takes the lines of a file and a source of random numbers, and returns the changed lines, or None
where the file has no place for it.
"""
import re

WORD = re.compile(r"[A-Za-z_]\w*|\d[\w_]*|[+\-*/%<>=&|!?.]+|[{}()\[\];,]")
LITERAL = re.compile(r'(?<![\w"])(\d[\d_]*)(?![\w"])|\b(true|false)\b|"([^"\\]+)"')
HEAD = re.compile(r"crate::(?:source::\w+|shim)::(?:(?:itoa|memchr|serde_json|indexmap)::)?")
MADE_UP = ("self.count += 1;", "return None;", "let _ = 0;", "}", "{", "use core::mem;", "fn added() {}", "// Added.", "impl Copy for Added {}",
           "const ADDED: u32 = 0;", "mod added;", ";", "")
ATTRIBUTES = ("#[inline]", "#[cold]", "#[cfg(any())]", "#[allow(unused)]", "#[derive(Clone)]", "#[must_use]", "#![no_implicit_prelude]")
PUT = ("crate::shim::fallible::", "try_to_vec", "!", "&", "mut ", "0 + ", "return ", "_")
ROOTS = ("std::", "core::", "crate::", "self::", "super::", "crate::shim::fallible::", "::std::", "crate::source::rw_law::",
         "crate::source::rw_journal::", "")
DROPS = ("self.count += 1;", "drop(self);", "let Entry { .. } = self; work();", "", "unreachable!()", "let x = self;")


def is_code(line):
    """Whether a line is code of the source: neither erased, nor added, nor a comment, nor a bracket alone."""
    bare = line.strip()
    return bool(bare) and not bare.startswith("//") and not line.endswith(" //+") and bare not in ("{", "}", "},", "});", ");")


def places(lines, test):
    return [n for n, line in enumerate(lines) if test(line)]


def with_line(lines, n, new):
    """The lines with others in place of line `n`."""
    return [*lines[:n], *new, *lines[n + 1 :]]


def chosen(lines, random, test):
    """The number of one of the lines that pass a test, or None."""
    found = places(lines, test)
    return random.choice(found) if found else None


def line_erased(lines, random):
    """A line of code is erased as a whole."""
    n = chosen(lines, random, is_code)
    return None if n is None else with_line(lines, n, ["//~ " + lines[n]])


def lines_erased(lines, random):
    """Some lines that follow each other are erased, whatever they are."""
    n = chosen(lines, random, is_code)
    if n is None:
        return None
    end = min(n + random.randint(2, 6), len(lines) - 1)
    return lines[:n] + [line if line.startswith("//~") else "//~ " + line if line else "//~" for line in lines[n:end]] + lines[end:]


def word_erased(lines, random):
    """A word, a number or a sign of a line of code is erased."""
    n = chosen(lines, random, is_code)
    if n is None:
        return None
    found = random.choice(list(WORD.finditer(lines[n])))
    return with_line(lines, n, [f"{lines[n][: found.start()]}/*~{found.group()}~*/{lines[n][found.end() :]}"])


def words_erased(lines, random):
    """A part of a line of code is erased, from one word to another."""
    n = chosen(lines, random, is_code)
    if n is None:
        return None
    words = list(WORD.finditer(lines[n]))
    first, last = sorted(random.choices(range(len(words)), k=2))
    start, end = words[first].start(), words[last].end()
    return with_line(lines, n, [f"{lines[n][:start]}/*~{lines[n][start:end]}~*/{lines[n][end:]}"])


def comment_erased(lines, random):
    """A comment of the source or an empty line is erased."""
    n = chosen(lines, random, lambda line: not line or line.strip().startswith("//") and not line.startswith("//~") and not line.endswith("//+"))
    return None if n is None else with_line(lines, n, ["//~ " + lines[n] if lines[n] else "//~"])


def line_added(lines, random):
    """A line that isn't in the source is added, with its mark."""
    n = random.randrange(len(lines))
    return [*lines[:n], f"{random.choice(MADE_UP)} //+", *lines[n:]]


def line_copied(lines, random):
    """A line of code or an added line stands a second time, marked as added, right there or elsewhere."""
    n = chosen(lines, random, lambda line: is_code(line) or line.endswith(" //+") or line.strip() in ("{", "}"))
    if n is None:
        return None
    to = random.choice([n, n + 1, random.randrange(len(lines))])
    return [*lines[:to], lines[n].removesuffix(" //+") + " //+", *lines[to:]]


def added_changed(lines, random):
    """An added line has another word, or is left out, or changes places with the one after it."""
    n = chosen(lines, random, lambda line: line.endswith(" //+"))
    if n is None:
        return None
    kind = random.choice(["word", "gone", "swapped"])
    if kind == "gone":
        return with_line(lines, n, [])
    if kind == "swapped" and lines[n + 1].endswith(" //+") and lines[n] != lines[n + 1]:
        return [*lines[:n], lines[n + 1], lines[n], *lines[n + 2 :]]
    words = [found for found in WORD.finditer(lines[n][:-4])]
    if not words:
        return None
    found = random.choice(words)
    return with_line(lines, n, [lines[n][: found.start()] + random.choice(["x", "0", "self", "None"]) + lines[n][found.end() :]])


def words_put(lines, random):
    """Words are put into a line of code, with their mark."""
    n = chosen(lines, random, is_code)
    if n is None:
        return None
    at = random.choice(list(WORD.finditer(lines[n]))).start()
    return with_line(lines, n, [f"{lines[n][:at]}/*+*/{random.choice(PUT)}/*+*/{lines[n][at:]}"])


def contract_moved(lines, random):
    """A line of a contract stands below the next line, or further below."""
    n = chosen(lines, random, lambda line: line.startswith("//~"))
    if n is None or n + 2 >= len(lines):
        return None
    to = min(n + random.randint(1, 8), len(lines) - 1)
    moved = [*lines[:n], *lines[n + 1 : to + 1], lines[n], *lines[to + 1 :]]
    return None if moved == lines else moved


def mark_removed(lines, random):
    """The mark of an erased line, of an erased part, of words that were put in, or of an added line is taken away."""
    n = chosen(lines, random, lambda line: line.startswith("//~") or "/*~" in line or "/*+*/" in line or line.endswith(" //+"))
    if n is None:
        return None
    line = lines[n]
    if line.startswith("//~"):
        new = line[4:]
    elif line.endswith(" //+"):
        new = line[:-4]
    else:
        new = line.replace("/*~", "", 1).replace("~*/", "", 1) if "/*~" in line else line.replace("/*+*/", "")
    return with_line(lines, n, [new])


def mark_broken(lines, random):
    """The mark of an erased line loses a character, or stands elsewhere in the line."""
    n = chosen(lines, random, lambda line: line.startswith("//~ "))
    if n is None:
        return None
    return with_line(lines, n, [random.choice(["// ", "/// ", "//~", "//~  ", " //~ "]) + lines[n][4:]])


def head_changed(lines, random):
    """The head of a path is another."""
    n = chosen(lines, random, lambda line: HEAD.search(line) and is_code(line) and "/*" not in line)
    if n is None:
        return None
    found = random.choice(list(HEAD.finditer(lines[n])))
    new = random.choice([*ROOTS, found.group().removeprefix("crate::source::")])
    return None if new == found.group() else with_line(lines, n, [lines[n][: found.start()] + new + lines[n][found.end() :]])


def derive_erased(lines, random):
    """A derive is erased, as a whole or one of its names."""
    n = chosen(lines, random, lambda line: line.startswith("#[derive("))
    if n is None:
        return None
    if random.random() < 0.3:
        return with_line(lines, n, ["//~ " + lines[n]])
    found = random.choice([*re.finditer(r", \w+(?=[,)])|(?<=\()\w+(?=\))|(?<=\()\w+,", lines[n])] or [None])
    return found and with_line(lines, n, [f"{lines[n][: found.start()]}/*~{found.group()}~*/{lines[n][found.end() :]}"])


def line_deleted(lines, random):
    """A line is deleted."""
    return with_line(lines, random.randrange(len(lines) - 1), [])


def literal_changed(lines, random):
    """A number, a truth value or a text of the code is another."""
    n = chosen(lines, random, lambda line: is_code(line) and LITERAL.search(line))
    if n is None:
        return None
    found = random.choice(list(LITERAL.finditer(lines[n])))
    new = str(int(found[1].replace("_", "") or 0) + 1) if found[1] else {"true": "false", "false": "true"}.get(found.group(), '"other"')
    return with_line(lines, n, [lines[n][: found.start()] + new + lines[n][found.end() :]])


def attribute_added(lines, random):
    """An attribute is added: as a line with or without a mark, or put into a line."""
    n, attribute = chosen(lines, random, is_code), random.choice(ATTRIBUTES)
    if n is None:
        return None
    new = random.choice([[attribute + " //+", lines[n]], [attribute, lines[n]], [f"/*+*/{attribute}/*+*/{lines[n]}"]])
    return with_line(lines, n, new)


def drop_with_code(lines, random):
    """An `impl Drop` with code of its own is erased. It is in the source too."""
    name, work = random.choice(["Entry", "Ring<V>", "Kept"]), random.choice(DROPS)
    n = random.choice(places(lines, lambda line: line == "") or [0])
    block = ["", f"//~ impl Drop for {name} {{", "//~     fn drop(self) {", f"//~         {work}", "//~     }", "//~ }"]
    return [*lines[:n], *block, *lines[n:]]


def in_string(lines, random):
    """A mark, or a head that restoring renames, stands in a string. The source is changed too."""
    n = chosen(lines, random, lambda line: is_code(line) and line.count('"') == 2 and "/*" not in line)
    if n is None:
        return None
    at, mark = lines[n].index('"') + 1, random.choice(["/*~x~*/", "crate::shim::", "//~ ", "crate::source::rw_law::", "/*+*/x/*+*/"])
    return with_line(lines, n, [lines[n][:at] + mark + lines[n][at:]])


ONE = (line_erased, lines_erased, word_erased, words_erased, comment_erased, line_added, line_copied, added_changed, words_put, contract_moved,
       mark_removed, mark_broken, head_changed, derive_erased, line_deleted, literal_changed, attribute_added)
# These stand in the source too, so that restoring finds nothing.
IN_SOURCE_TOO = (drop_with_code, in_string)


def two_planted(lines, random):
    """Two of the other kinds, in one file."""
    first = random.choice(ONE)(lines, random)
    return first and random.choice(ONE)(first, random)


ALL = (*ONE, two_planted, *IN_SOURCE_TOO)
