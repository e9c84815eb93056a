"""Judges the samples of refused forms: each by the commands `erase` and `judge`, in a small checkout of one crate."""
import os
import re
import subprocess

HERE = os.path.dirname(os.path.dirname(os.path.realpath(__file__)))
CRATES = "both: rw_sample\nlibrary:\nconsole:\nprogram:\npage:\ntests:\nports: itoa\n"
SAID = re.compile(r"rust/core/src/source/rw_sample/(\w+)\.rs:(\d+): (.*)")


def samples():
    """The samples of samples.txt by their names."""
    with open(f"{HERE}/planting/samples.txt", encoding="utf-8") as file:
        parts = file.read().split("\n== ")[1:]
    return {name: text for name, _, text in (part.partition("\n") for part in parts)}


def made(folder, texts, casts="", hints=""):
    """Makes a checkout with one source for each text, this table of casts and these functions to inline, and erases them."""
    for name in ("crates/rw_sample/src", "tools/erasing", "rust/core/src"):
        os.makedirs(f"{folder}/{name}")
    for name, text in {"tools/erasing/sources.txt": CRATES, "tools/erasing/casts.txt": casts, "tools/erasing/inlined.txt": hints, "crates.txt": "# one\nrw_sample:\n"}.items():
        write(f"{folder}/{name}", text)
    for name, text in texts.items():
        write(f"{folder}/crates/rw_sample/src/{name}.rt", text.rstrip("\n") + "\n")
    return run("erase", folder)


def write(path, text):
    with open(path, "w", encoding="utf-8") as file:
        file.write(text)


def run(command, folder):
    """What a command says of a checkout."""
    name, *words = command.split()
    done = subprocess.run(["python3", "-B", f"{HERE}/{name}", *words, folder], capture_output=True, text=True)
    return (done.stdout + done.stderr).strip()


def expected(folder, name):
    """The line of the Rust that a sample says is refused, with the words of the reason, or None for one that is allowed."""
    with open(f"{folder}/rust/core/src/source/rw_sample/{name}.rs", encoding="utf-8") as file:
        for number, line in enumerate(file, 1):
            if "//= " in line:
                return number, line.partition("//= ")[2].strip()
    return None


def said_of(folder):
    """What the judge says of each file: lines and reasons."""
    said = {}
    for line in run("judge", folder).split("\n"):
        if found := SAID.fullmatch(line):
            said.setdefault(found[1], []).append((int(found[2]), found[3]))
    return said


def is_as_wanted(wanted, said):
    """Whether the reasons are those of the wanted line. A source with marks of its own can't be put back either, which is said of line 1."""
    if wanted is None:
        return not said
    return any(wanted[1] in why for _, why in said) and all(n == wanted[0] or why.startswith("without its marks") for n, why in said)


def check(folder):
    """Yields, for each sample, its name and what is wrong with what the judge says of it, or None."""
    texts = samples()
    made(folder, texts)
    said = said_of(folder)
    for name in texts:
        wanted = expected(folder, name)
        yield name, None if is_as_wanted(wanted, said.get(name, [])) else f"wanted {wanted}, and the judge said {said.get(name)}"
