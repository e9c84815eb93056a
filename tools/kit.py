"""Rattle's kit, as the builds use it: where it is, which crates depend on which, and its compiler over proved libraries."""
import os
import shutil
import subprocess


# What programs and libraries are compiled for.
TARGET = "x86_64-unknown-linux-gnu"


class Refused(Exception):
    """Why nothing is built."""


def run(*words, **how):
    """Runs a tool, and raises Refused with the end of its output if it fails."""
    done = subprocess.run(words, stdin=subprocess.DEVNULL, stdout=subprocess.PIPE, stderr=subprocess.STDOUT, text=True, **how)
    if done.returncode != 0:
        raise Refused(f"{os.path.basename(words[0])} failed\n{done.stdout[-4000:]}")


def folder():
    """The kit's folder, which has `rt` in it."""
    rt = shutil.which("rt")
    if rt is None:
        raise Refused("rt, Rattle's command, isn't on the PATH: only who changes the sources builds, and what is built is in rust/built/")
    return os.path.dirname(os.path.dirname(os.path.realpath(rt)))


def uses_of(top):
    """The libraries that each crate of the repository names."""
    uses = {}
    with open(os.path.join(top, "crates.txt"), encoding="utf-8") as file:
        for line in file:
            head, _, rest = line.partition("#")[0].partition(":")
            if head.strip():
                uses[head.split()[0]] = rest.split()
    return uses


def below(name, uses):
    """The crates of the repository that a crate depends on, each after those that it needs itself."""
    found = []
    for used in uses[name]:
        if used in uses:
            found += [it for it in [*below(used, uses), used] if it not in found]
    return found


def are_left(top, name):
    """Whether the libraries below a crate are there as `rt ci` leaves them: without the stamps by which `rt lib` knows its own."""
    folders = [f"{top}/crates/{it}/out/rlib" for it in below(name, uses_of(top))]
    return all(os.path.isdir(it) and not os.path.exists(f"{it}/stamp") for it in folders)


def library_words(top, crate):
    """The arguments by which `rattle build` finds the libraries of a crate."""
    kit, uses = folder(), uses_of(top)
    words = ["--extern", f"std={kit}/rlibs/std.rlib", "-L", f"dependency={kit}/rlibs"]
    for name in uses[crate]:
        library = f"{top}/crates/{name}/out/rlib/{name}.rlib" if name in uses else f"{kit}/rlibs/{name}.rlib"
        words += ["--extern", f"{name}={library}"]
    for name in below(crate, uses):
        words += ["-L", f"dependency={top}/crates/{name}/out/rlib"]
    return words


def compile_words(top, crate, made, toolchain=None):
    """The arguments of `rattle build` for a program or a static library over its proved libraries, for the most basic processor of the target.

    It is run in the crate's folder. The same sources make the same bytes, wherever the repository is.
    """
    kit = folder()
    is_program = os.path.exists(f"{top}/crates/{crate}/src/main.rt")
    kind = ["src/main.rt"] if is_program else ["src/lib.rt", "--crate-type", "staticlib"]
    return [f"{kit}/bin/rattle", "build", "--crate-name", crate, *kind, *library_words(top, crate),
            "--antt-project", f"{kit}/rattle/logic/antt-project.json", "--logic-built", f"{kit}/logic_built", "--jobs", "1",
            "--links", f"{crate}=", "--target", TARGET, "--cpu", "x86-64", "--backend", "llvm", "--incremental", "out/incremental",
            "--toolchain", toolchain or f"{kit}/toolchain", "-o", made]
