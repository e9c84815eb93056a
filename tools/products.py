"""What is built: the Rust source, the index of contracts, the program and the page, each as the bytes of its files."""
import hashlib
import os
import sys
import tempfile

import kit

HERE = os.path.dirname(os.path.realpath(__file__))
sys.path += [os.path.join(os.path.dirname(HERE), "page", "tools"), os.path.join(HERE, "erasing")]

import document
import eraser.layout
import eraser.source
import index.pages
import module

# Folders in which nothing stands that isn't built.
BUILT, SOURCE, INDEX = "rust/built", "rust/core/src/source", "docs/proof/index"
PAGE = f"{BUILT}/yovanelum.html"
PROGRAM = f"{BUILT}/x86_64-linux/ttd"


def read(path):
    with open(path, "rb") as file:
        return file.read()


def sources(top, crate):
    """A checksum of each source of the crate and of those below it, as `b2sum --check` reads them.

    Proofs aren't among them: they show why the sources are right, and no code is made of them.
    """
    lines = []
    for name in [*kit.below(crate, kit.uses_of(top)), crate]:
        for part in ("src", "specs"):
            for folder, _, files in os.walk(f"{top}/crates/{name}/{part}"):
                for file in files:
                    path = os.path.relpath(f"{folder}/{file}", top)
                    lines.append((path, hashlib.blake2b(read(f"{top}/{path}"), digest_size=16).hexdigest()))
    return "".join(f"{digest}  {path}\n" for path, digest in sorted(lines)).encode()


def source(top, _):
    """The Rust source of the proved crates. It needs no kit."""
    files, _ = eraser.layout.made(top)
    return {f"rust/core/src/{path}": text.encode() for path, text in files.items()}


def contracts(top, _):
    """The index of contracts. It needs no kit."""
    return {f"{INDEX}/{name}": text.encode() for name, text in index.pages.made(top).items()}


def program(top, work):
    """The program, and the checksums of its sources."""
    folder = kit.folder()
    made, linked = f"{work}/ttd.o", f"{work}/ttd"
    kit.run(*kit.compile_words(top, "rw_ttd", made), cwd=f"{top}/crates/rw_ttd")
    kit.run(f"{folder}/bin/rattle-link", "--target", kit.TARGET, "--toolchain", f"{folder}/toolchain", "-o", linked, made,
            f"{folder}/c/libos_c.a", f"{folder}/c/liblibc_c.a")
    return {PROGRAM: read(linked), f"{PROGRAM}.sources": sources(top, "rw_ttd")}


def page(top, work):
    """The page, over the engine, which is made of the Rust source. It needs no kit."""
    return {PAGE: document.page(f"{top}/page", module.build(top, work)).encode()}


def page_again(top):
    """The page with the current scripts and the module of the built page, for work on the page alone. It needs no compiler."""
    built = read(f"{top}/{PAGE}").decode()
    module_there = document.module_of(built)
    if module_there is None:
        raise kit.Refused(f"{PAGE} has no module: build it whole")
    try:
        return {PAGE: document.page(f"{top}/page", module_there).encode()}
    except document.Refused as why:
        raise kit.Refused(str(why)) from why


# What is built under each name: how, of which crate, which has to be proved first, and the folder that it fills, if it fills one.
PRODUCTS = {"source": (source, None, SOURCE), "index": (contracts, None, INDEX), "ttd": (program, "rw_ttd", None), "page": (page, None, None)}


def build(name, top):
    make = PRODUCTS[name][0]
    try:
        with tempfile.TemporaryDirectory() as work:
            return make(top, work)
    except (document.Refused, eraser.source.Refused) as why:
        raise kit.Refused(str(why)) from why
