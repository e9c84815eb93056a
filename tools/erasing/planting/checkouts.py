"""Small checkouts with something wrong besides forms: what the commands have to say of them."""
import os

from . import forms

# A type whose `drop` does something, at line 3.
DROP = """struct Guard { n: u8 }

impl Drop for Guard {
    fn drop(self) {
        let Guard { n } = self;
        tell(n);
    }
}
"""
CAST = """pub const MOST: usize = 64;

fn at(bytes: &[u8], i: u64) -> u8
    requires { i < MOST }
{
    bytes[i as usize]
}
"""
HINTED = """//! One.

fn at() -> u8 {
    1
}

fn put() {}
"""
LIMIT = "MOST | 64 | rw_sample/src/lib.rt\n"
ROW = "rw_sample/src/lib.rt | at | i as usize | 1 | MOST | requires { i < MOST }\n"
SATURATED = "rw_sample/src/lib.rt | at | i as usize | 1 | saturated | fn at(bytes: &[u8], i: u64)\n"
RUST = "rust/core/src/source/rw_sample/mod.rs"
TABLE = "tools/erasing/casts.txt"
LISTS = ("rust/core/src/source.rs", "rust/core/src/source/program.rs", "rust/core/src/source/page.rs")
LARGE = "4_294_967_296"


def erased_drop(folder):
    """An `impl Drop` with code that was erased by hand: the judge refuses it, as the eraser does."""
    forms.made(folder, {"lib": "//! One.\n"})
    forms.write(f"{folder}/crates/rw_sample/src/lib.rt", DROP)
    erased = "\n".join("//~ " + line if n > 1 else line for n, line in enumerate(DROP.rstrip("\n").split("\n")))
    forms.write(f"{folder}/{RUST}", f"// From crates/rw_sample/src/lib.rt, with its contracts as comments. //+\n{erased}\n")


def with_cast(folder, table, text=CAST):
    forms.made(folder, {"lib": text})
    forms.write(f"{folder}/{TABLE}", table)


def with_saturated(folder, table, old="", new=""):
    """A source with an index that nothing bounds, which is saturated in Rust. Then the table is written, and the Rust is changed."""
    forms.made(folder, {"lib": CAST}, SATURATED)
    forms.write(f"{folder}/{TABLE}", table)
    with open(f"{folder}/{RUST}", encoding="utf-8") as file:
        text = file.read()
    assert "crate::shim::saturated(" in text and old in text, text
    forms.write(f"{folder}/{RUST}", text.replace(old, new))


def with_hint(folder, old="", new="", source=HINTED):
    """A source with a function that rustc is to inline, whose Rust is changed."""
    forms.made(folder, {"lib": source}, hints="rw_sample/src/lib.rt: at\n")
    with open(f"{folder}/{RUST}", encoding="utf-8") as file:
        text = file.read()
    assert text.count("#[inline(always)] //+") == 1 and old in text, text
    forms.write(f"{folder}/{RUST}", text.replace(old, new))


def stranger(folder):
    forms.made(folder, {"lib": CAST.replace("i as usize", "1")})
    forms.write(f"{folder}/rust/core/src/source/rw_sample/stranger.rs", "fn added() {}\n")


def unproved(folder):
    forms.made(folder, {"lib": "//! One.\n"})
    forms.write(f"{folder}/crates.txt", "rw_other:\n")


def of_no_crate(folder):
    forms.made(folder, {"lib": "//! One.\n"})
    forms.write(f"{folder}/rust/core/src/source/added.rs", "fn added() {}\n")


def with_list(folder, path, old, new):
    """One of the lists has something else."""
    forms.made(folder, {"lib": "//! One.\n"})
    with open(f"{folder}/{path}", encoding="utf-8") as file:
        text = file.read()
    assert old in text, f"{path} has no {old}"
    forms.write(f"{folder}/{path}", text.replace(old, new))


def missing(folder):
    forms.made(folder, {"lib": "mod other;\n", "other": "//! One.\n"})
    os.remove(f"{folder}/rust/core/src/source/rw_sample/other.rs")


def other_source(folder):
    forms.made(folder, {"lib": CAST.replace("i as usize", "1")})
    forms.write(f"{folder}/crates/rw_sample/src/lib.rt", CAST.replace("i as usize", "2"))


# Each case: its name, what makes the checkout, the command, and what it has to say. An empty text is that it finds no fault.
CASES = [
    ("erase an impl Drop with code", lambda it: forms.made(it, {"lib": DROP}), "erase", "crates/rw_sample/src/lib.rt:3: an `impl Drop`"),
    ("judge an erased impl Drop with code", erased_drop, "judge", f"{RUST}:4: erased without being a contract"),
    ("a cast with its row", lambda it: with_cast(it, LIMIT + ROW), "judge", ""),
    ("a cast without a row", lambda it: with_cast(it, ""), "judge", f"{RUST}:7: a cast without a row"),
    ("a cast that stands less often", lambda it: with_cast(it, LIMIT + ROW.replace("| 1 |", "| 2 |")), "judge", f"{RUST}:7: i as usize stands"),
    ("a row without a cast", lambda it: with_cast(it, LIMIT + ROW + ROW.replace("| at |", "| put |")), "judge", f"{TABLE}:3: a row for a cast"),
    ("a row that stands twice", lambda it: with_cast(it, LIMIT + ROW + ROW), "judge", f"{TABLE}:3: a second row"),
    ("a row without its clause", lambda it: with_cast(it, LIMIT + ROW.replace("<", "≤")), "judge", f"{TABLE}:2: what bounds the cast doesn't"),
    ("a row without a limit", lambda it: with_cast(it, ROW), "judge", f"{TABLE}:1: no limit is called MOST"),
    ("a limit with another value", lambda it: with_cast(it, LIMIT.replace("64", "65") + ROW), "judge", f"{TABLE}:1: rw_sample/src/lib.rt has no"),
    ("a limit that is too large", lambda it: with_cast(it, LIMIT.replace("64", LARGE) + ROW, CAST.replace("64", LARGE)), "judge",
     f"{TABLE}:1: MOST doesn't fit in 32 bits"),
    ("a limit that nothing has", lambda it: with_cast(it, LIMIT, CAST.replace("i as usize", "1")), "judge", f"{TABLE}:1: no row has the limit"),
    ("a line that is no row", lambda it: with_cast(it, LIMIT + ROW + "MOST | many\n"), "judge", f"{TABLE}:3: neither a limit"),
    ("a cast that is saturated", lambda it: with_saturated(it, SATURATED), "judge", ""),
    ("saturated though it has a limit", lambda it: with_saturated(it, LIMIT + ROW), "judge", f"{RUST}:7: i as usize is saturated here"),
    ("not saturated though nothing bounds it", lambda it: with_cast(it, SATURATED), "judge", f"{RUST}:7: i as usize is not saturated here"),
    ("another number saturated", lambda it: with_saturated(it, SATURATED, "/*+*/i ", "/*+*/ 7 "), "judge", f"{RUST}:"),
    ("saturated twice", lambda it: with_saturated(it, SATURATED, "/*~as usize~*/", "/*~as usize~*//*~as usize~*/"), "judge", f"{RUST}:"),
    ("a hint that is listed", lambda it: with_hint(it), "judge", ""),
    ("a hint that is missing", lambda it: with_hint(it, "#[inline(always)] //+\n", ""), "judge", f"{RUST}:3: a line has to be added"),
    ("a hint that isn't listed", lambda it: with_hint(it, "fn put", "#[inline(always)] //+\nfn put"), "judge", f"{RUST}:9: an added line"),
    ("another hint", lambda it: with_hint(it, "#[inline(always)] //+", "#[cold] //+"), "judge", f"{RUST}:4: an added line"),
    ("a hint in place of the opposite one", lambda it: with_hint(it, source=HINTED.replace("fn at", "#[inline(never)]\nfn at")), "judge", ""),
    ("a hint for no function", lambda it: forms.made(it, {"lib": HINTED}, hints="rw_sample/src/lib.rt: get\n"), "erase", "there are 0 here"),
    ("a crate that isn't proved", unproved, "judge", "crates.txt: rw_sample isn't in it"),
    ("a file of no crate", of_no_crate, "judge", "rust/core/src/source/added.rs: it is of no crate"),
    ("a file without a source", stranger, "judge", "crates/rw_sample/src/stranger.rt: it isn't there"),
    ("a source without a file", missing, "judge", "rust/core/src/source/rw_sample/other.rs: it isn't there"),
    ("a module that isn't listed", lambda it: with_list(it, LISTS[0], "pub mod rw_sample;\n", ""), "judge", f"{LISTS[0]}: after its attribute"),
    ("code in a list", lambda it: with_list(it, LISTS[1], "pub mod", "fn added() {}\npub mod"), "judge", f"{LISTS[1]}: after its attribute"),
    ("another attribute in a list", lambda it: with_list(it, LISTS[0], "#![", "#![no_std]\n#!["), "judge", f"{LISTS[0]}: a list begins with"),
    ("another source, judged", other_source, "judge", f"{RUST}:1: without its marks this isn't crates/rw_sample/src/lib.rt"),
    ("another source, restored", other_source, "restore --check", f"{RUST}: it isn't what crates/rw_sample/src/lib.rt becomes"),
]


def check(folder):
    """Yields, for each case, its name and what is wrong with what the command says, or None."""
    for n, (name, make, command, wanted) in enumerate(CASES):
        place = f"{folder}/{n}"
        said = make(place) if command == "erase" else make(place) or forms.run(command, place)
        is_right = wanted in said if wanted else said.endswith(" 0 faults")
        yield name, None if is_right else f"wanted {wanted or 'no fault'!r}, and {command} said {said!r}"
