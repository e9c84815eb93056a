"""Plants an edit in a copy of the Rust source, compiles the program, and runs tests over it."""
import glob
import hashlib
import os
import shutil
import signal
import subprocess
import sys
import typing

HERE = os.path.dirname(os.path.dirname(os.path.realpath(__file__)))
sys.path.insert(0, f"{os.path.dirname(os.path.dirname(HERE))}/tools/erasing")
from eraser import layout, rust  # noqa: E402

# Most of a program stays compiled from one edit to the next, since it has many parts that aren't optimised together. A program without symbols is the
# same where its code is. Tests aren't optimised, since they compile longer than they run.
PROFILE = {"CARGO_PROFILE_RELEASE_OPT_LEVEL": "1", "CARGO_PROFILE_RELEASE_INCREMENTAL": "true", "CARGO_PROFILE_RELEASE_CODEGEN_UNITS": "256",
           "CARGO_PROFILE_RELEASE_LTO": "off", "CARGO_PROFILE_RELEASE_STRIP": "symbols", "CARGO_PROFILE_DEV_DEBUG": "0", "CARGO_NET_OFFLINE": "true",
           "RUSTFLAGS": "--cap-lints allow"}
# The tests of the Rust crate that compare its calls, its journals and what is found in them with models or with the kit's program.
# Each is a program with the names of its tests.
CRATE = (("--lib",), ("--test=optimized", "model_broadcast::", "model_watch::", "limits::"), ("--test=calls", "journals::", "broadcast::", "watch::"))
MOST_SECONDS = 900
# Tests that take no time of a processor for so long wait for what never happens.
MOST_IDLE_SECONDS = 60


class Edit(typing.NamedTuple):
    crate: str
    name: str
    # Files of the crate, with a text that is in it once and what comes in its place.
    pairs: tuple


def edits_of(top, crate):
    """The edits of a crate that change its code. Their format is that of ./mutants."""
    found = []
    for home in (f"{top}/crates/{crate}/must-fail", f"{top}/tests/mutants/{crate}"):
        for file in sorted(os.listdir(home)) if os.path.isdir(home) else []:
            if file.endswith(".edit"):
                with open(f"{home}/{file}", encoding="utf-8") as text:
                    pairs = tuple(it for it in pairs_of(text.read()) if it[0].startswith("src/"))
                if pairs:
                    found.append(Edit(crate, f"{crate}/{file.removesuffix('.edit')}", pairs))
    return found


def pairs_of(text):
    path = old = ""
    for line in text.split("\n"):
        word, _, rest = line.partition(" ")
        if word == "file:":
            path = rest.strip()
        elif word == "old:":
            old = rest
        elif word == "new:":
            yield path, old, rest


def spent(group):
    """The time of processors that the threads of a group of processes took, in the kernel's ticks, or None where one of them could go on now."""
    ticks = 0
    for thread in glob.glob("/proc/[0-9]*/task/[0-9]*/stat"):
        try:
            with open(thread, encoding="utf-8", errors="replace") as file:
                state, _, of, *rest = file.read().rpartition(")")[2].split()
        except OSError:
            continue
        if int(of) == group:
            if state in "RD":
                return None
            ticks += sum(map(int, rest[8:12]))
    return ticks


def run(words, folder, target):
    """Whether a command of cargo succeeds, in time."""
    env = {**os.environ, **PROFILE, "CARGO_TARGET_DIR": target}
    child = subprocess.Popen(words, cwd=folder, env=env, stdin=subprocess.DEVNULL, stdout=subprocess.DEVNULL, stderr=subprocess.DEVNULL, start_new_session=True)
    for _ in range(MOST_SECONDS // MOST_IDLE_SECONDS):
        before = spent(child.pid)
        try:
            return child.wait(MOST_IDLE_SECONDS) == 0
        except subprocess.TimeoutExpired:
            if before is not None and spent(child.pid) == before:
                break
    os.killpg(child.pid, signal.SIGKILL)
    child.wait()
    return False


class Lane:
    """A copy of the Rust crate, in which one edit at a time is planted."""

    def __init__(self, top, folder):
        self.top, self.folder, self.crates = top, folder, layout.Crates(top)
        self.rust, self.target = f"{folder}/rust", f"{folder}/target"
        self.program = f"{folder}/target-program/release/ttd"
        shutil.rmtree(self.rust, ignore_errors=True)
        os.makedirs(folder, exist_ok=True)
        subprocess.run([f"{top}/rust/sources", f"{folder}/crates"], check=True)
        # The workspace that the crate is of.
        for name in ("Cargo.toml", "Cargo.lock"):
            shutil.copy(f"{top}/{name}", folder)
        shutil.rmtree(f"{folder}/page", ignore_errors=True)
        shutil.copytree(f"{top}/page/engine", f"{folder}/page/engine", ignore=shutil.ignore_patterns("target"))
        # The files are new, so that nothing stays that cargo compiled of an edit.
        shutil.copytree(f"{top}/rust", self.rust, ignore=shutil.ignore_patterns("target", "x86_64-linux", "tokio*"), copy_function=shutil.copy)
        shutil.rmtree(f"{folder}/tests", ignore_errors=True)
        shutil.copytree(f"{top}/tests/core", f"{folder}/tests/core", ignore=shutil.ignore_patterns("target"))
        if not (self.build() and self.reads_library() and self.core_tests() and self.crate_tests()):
            raise RuntimeError(f"the sources don't pass as they are: {folder}")
        self.unplanted = self.digest()

    def plant(self, edit):
        """Plants an edit, and returns `built`, or `unused` where the program is the same as without, `refused` where rustc refuses it,
        or `contracts` where it changes no code."""
        texts = {}
        for path, old, new in edit.pairs:
            texts.setdefault(path, self.source(edit.crate, path))
            if texts[path].count(old) != 1:
                return "misfit"
            texts[path] = texts[path].replace(old, new)
        if not any([self.write(edit.crate, path, text) for path, text in texts.items()]):
            return "contracts"
        if not self.build():
            return "refused"
        if self.digest() != self.unplanted:
            return "built"
        # What only the library has isn't compiled with the program.
        return "unused" if edit.crate in self.crates.program or self.reads(edit.crate) else "refused"

    def restore(self, edit):
        for path, _, _ in edit.pairs:
            self.write(edit.crate, path, self.source(edit.crate, path))

    def source(self, crate, path):
        with open(f"{self.top}/crates/{crate}/{path}", encoding="utf-8") as file:
            return file.read()

    def write(self, crate, path, text):
        """Writes the Rust of a source, and returns whether it changed."""
        made, _ = rust.rust(crate, f"crates/{crate}/{path}", text, self.crates)
        place = f"{self.rust}/core/src/source/{layout.place_of(f'{crate}/{path}')}"
        with open(place, encoding="utf-8") as file:
            if file.read() == made:
                return False
        with open(place, "w", encoding="utf-8") as file:
            file.write(made)
        return True

    def digest(self):
        with open(self.program, "rb") as file:
            return hashlib.file_digest(file, "blake2b").digest()

    def registry(self):
        return f"--config={self.folder}/crates/config.toml"

    def build(self):
        words = ["cargo", "build", "--release", "--locked", "-j2", self.registry()]
        return run(words, f"{self.rust}/ttd", f"{self.folder}/target-program")

    def reads(self, crate):
        """Whether rustc reads what has a crate that the program lacks: the library, or what tests have of the proved crates."""
        if crate not in self.crates.tests:
            return self.reads_library()
        return run(["cargo", "check", "--locked", "-j2", "-p", "proved"], f"{self.folder}/tests/core", f"{self.folder}/target-core")

    def reads_library(self):
        return run(["cargo", "check", "--locked", "-j2", "--lib", self.registry()], self.rust, self.target)

    def core_tests(self):
        programs = [f"--test={program}" for program in ("calls", "texts", "storms", "refusals")]
        words = ["cargo", "test", "--locked", "-j2", *programs, "--", "--test-threads=2"]
        return run(words, f"{self.folder}/tests/core", f"{self.folder}/target-core")

    def crate_tests(self):
        runs = (["cargo", "test", "--locked", "-j2", self.registry(), program, "--", "--test-threads=2", *names] for program, *names in CRATE)
        return all(run(words, self.rust, self.target) for words in runs)
