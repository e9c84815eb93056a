"""Whether rustc compiles the core and what stands on it, or what tests have of the proved crates, with one file changed. Those of the program and the
page are among the latter.
"""
import os
import shutil
import subprocess

# The packages of the library from the lowest to the highest: the name of each, its root below rust/, and those that it uses.
LIBRARY = [("yovanelum_core", "core/src/lib.rs"), ("yovanelum_record", "record/src/lib.rs"), ("yovanelum_reader", "reader/src/lib.rs"), ("yovanelum", "src/lib.rs")]
TESTS = [("planted", "../tests/core/proved/src/lib.rs")]


class Compiled:
    """A copy of the sources of these packages, in which one file after the other is changed."""

    def __init__(self, top, lists, folder):
        self.lists, self.folder, self.crate, self.out = lists, f"{folder}/rust", f"{top}/rust", f"{folder}/out"
        for part in ("rust/core/src", "rust/record/src", "rust/reader/src", "rust/src", "rust/ttd/src", "tests/core/proved/src"):
            shutil.copytree(f"{top}/{part}", f"{folder}/{part}")

    def roots_of(self, crate):
        return LIBRARY if crate in self.lists.both + self.lists.library else TESTS

    def build(self, roots):
        """Compiles roots without linking them, and returns rustc's messages of the first that has an error, or None if there is none."""
        below = []
        for name, root in roots:
            done = subprocess.run(["rustc", "--edition", "2024", "--cap-lints", "allow", "--crate-type", "lib", "--crate-name", name, "--emit", "metadata",
                                   "--cfg", 'feature="report"', *below, "--out-dir", self.out, f"{self.folder}/{root}"], capture_output=True, text=True,
                                  env=dict(os.environ, CARGO_MANIFEST_DIR=self.crate, CARGO_PKG_VERSION="0.0.0"))
            if done.returncode:
                return done.stderr
            below += ["--extern", f"{name}={self.out}/lib{name}.rmeta"]
        return None

    def error_with(self, pair, text):
        """rustc's messages where the file of a pair has this text, or None if it compiles."""
        path = f"{self.folder}/{pair.rust.partition('/rust/')[2]}"
        with open(path, encoding="utf-8", newline="") as file:
            there = file.read()
        write(path, text)
        try:
            return self.build(self.roots_of(pair.crate))
        finally:
            write(path, there)


    def reads(self, pair):
        """Whether rustc reads the file of a pair, and compiles it as it is: a bracket that isn't opened has to be an error."""
        return self.build(self.roots_of(pair.crate)) is None and self.error_with(pair, "}\n") is not None


def write(path, text):
    with open(path, "w", encoding="utf-8", newline="") as file:
        file.write(text)
