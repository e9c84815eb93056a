"""Proves crates and all that they depend on, side by side, and prints the progress.

`rt` locks a crate and those below it while it works there. So each crate is proved in a tree of its own, `out/trees/NAME`: copies of its
sources and of those below it, and links to the libraries that are proved already.
"""
import contextlib
import fcntl
import os
import queue
import shutil
import signal
import subprocess
import sys
import threading
import time

import kit

# The most processes of one proof. More of them cost more time in all.
MOST_JOBS = 4
# The memory that a proof needs, in KiB.
MEMORY = 2_000_000


def say(text):
    print(f"build: {text}", file=sys.stderr, flush=True)


@contextlib.contextmanager
def locked(path, waiting=None):
    """Locks this file or folder. If another process has locked it, `waiting` is printed first."""
    lock = os.open(path, os.O_RDONLY)
    try:
        try:
            fcntl.flock(lock, fcntl.LOCK_EX | fcntl.LOCK_NB)
        except OSError:
            if waiting:
                say(waiting)
            fcntl.flock(lock, fcntl.LOCK_EX)
        yield
    finally:
        os.close(lock)


def lanes():
    """How many processes may prove at a time: three for two cores, since they wait some of the time, and one for each 2 GB of free memory."""
    with open("/proc/meminfo", encoding="utf-8") as file:
        free = next(int(line.split()[1]) for line in file if line.startswith("MemAvailable:"))
    return max(1, min((len(os.sched_getaffinity(0)) * 3 + 1) // 2, free // MEMORY))


def lines_of(top, name):
    """The lines of source of a crate, by which the time of its proof is estimated."""
    count = 0
    for part in ("src", "specs", "proofs"):
        for folder, _, files in os.walk(f"{top}/crates/{name}/{part}"):
            for file in files:
                with open(f"{folder}/{file}", "rb") as source:
                    count += source.read().count(b"\n")
    return count


def weights(top, goals, uses):
    """The goals and the crates below them, each with the lines of the longest chain from there up to a goal."""
    found, size = {}, {}

    def climb(name, above):
        if name not in size:
            size[name] = lines_of(top, name)
        if found.get(name, -1) < above + size[name]:
            found[name] = above + size[name]
            for used in uses[name]:
                if used in uses:
                    climb(used, found[name])

    for goal in goals:
        climb(goal, 0)
    return found


class Tree:
    """The folder in which one crate is proved."""

    def __init__(self, top, name):
        self.top, self.name, self.folder = top, name, f"{top}/out/trees/{name}"

    def plant(self, uses):
        """Copies the sources of the crate and of those below, and links the libraries that are proved."""
        names = [*kit.below(self.name, uses), self.name]
        os.makedirs(f"{self.folder}/crates")
        with open(f"{self.top}/crates.txt", encoding="utf-8") as file:
            kept = [line for line in file if line.split(":")[0].split()[:1] and line.split(":")[0].split()[0] in names]
        with open(f"{self.folder}/crates.txt", "w", encoding="utf-8") as file:
            file.writelines(kept)
        for name in names:
            for part in ("src", "specs", "proofs"):
                if os.path.isdir(f"{self.top}/crates/{name}/{part}"):
                    shutil.copytree(f"{self.top}/crates/{name}/{part}", f"{self.folder}/crates/{name}/{part}")
        for name in names[:-1]:
            self.link_library(name)

    def link_library(self, name):
        library = f"{self.top}/crates/{name}/out/rlib"
        if os.path.isdir(library):
            with contextlib.suppress(OSError):
                shutil.copytree(library, f"{self.folder}/crates/{name}/out/rlib", copy_function=os.link)
                return
            shutil.rmtree(f"{self.folder}/crates/{name}/out", ignore_errors=True)
            shutil.copytree(library, f"{self.folder}/crates/{name}/out/rlib")

    def take_kept(self):
        """Moves what earlier proofs of the crate have left in its folder out/ into the tree."""
        move(f"{self.top}/crates/{self.name}/out", f"{self.folder}/crates/{self.name}/out")

    def clear(self):
        """Moves the folder out/ back to the crate, and removes the tree."""
        move(f"{self.folder}/crates/{self.name}/out", f"{self.top}/crates/{self.name}/out")
        shutil.rmtree(self.folder, ignore_errors=True)


def move(old, new):
    if os.path.isdir(old):
        shutil.rmtree(new, ignore_errors=True)
        os.rename(old, new)


class Proof:
    """A thread that proves a crate. At its end it puts itself into a queue."""

    def __init__(self, top, name, uses, jobs, ended):
        self.tree, self.uses, self.jobs, self.ended = Tree(top, name), uses, jobs, ended
        self.name, self.since, self.process, self.is_stopped, self.told = name, time.monotonic(), None, False, ""
        self.thread = threading.Thread(target=self.work, daemon=True)
        self.thread.start()

    def seconds(self):
        return int(time.monotonic() - self.since)

    def work(self):
        self.is_proved = False
        try:
            # Waits for other work in the crate's own folder, and locks it out until the end.
            with locked(f"{self.tree.top}/crates/{self.name}"):
                self.tree.plant(self.uses)
                self.tree.take_kept()
                self.is_proved = self.prove()
                self.tree.clear()
        except (OSError, shutil.Error) as fault:
            self.told += f"{fault}\n"
        self.ended.put(self)

    def prove(self):
        if self.is_stopped:
            return False
        words = [f"{kit.folder()}/bin/rt", "lib", "--jobs", str(self.jobs)]
        self.process = subprocess.Popen(words, cwd=f"{self.tree.folder}/crates/{self.name}", stdin=subprocess.DEVNULL,
                                        stdout=subprocess.PIPE, stderr=subprocess.STDOUT, text=True)
        if self.is_stopped:
            self.process.terminate()
        self.told = self.process.communicate()[0]
        return self.process.returncode == 0

    def stop(self):
        self.is_stopped = True
        if self.process:
            self.process.terminate()


class Proofs:
    """The proofs of the goals and of all crates below them."""

    def __init__(self, top, goals):
        self.top, self.uses = top, kit.uses_of(top)
        self.weight = weights(top, goals, self.uses)
        self.lanes, self.ended, self.at_work, self.proved = lanes(), queue.Queue(), {}, set()
        self.since = time.monotonic()

    def ready(self):
        """The crates whose libraries are proved. The first is the one that the longest chain waits for."""
        left = [name for name in self.weight if name not in self.proved and name not in self.at_work]
        found = [name for name in left if all(used in self.proved for used in self.uses[name] if used in self.uses)]
        return sorted(found, key=lambda name: -self.weight[name])

    def start_ready(self):
        """Starts crates on the idle lanes. The first crate gets the lanes that the others leave."""
        ready = self.ready()
        for place, name in enumerate(ready):
            idle = self.lanes - sum(it.jobs for it in self.at_work.values())
            if idle < 1:
                return
            jobs = max(1, min(MOST_JOBS, idle - (len(ready) - place - 1)))
            self.at_work[name] = Proof(self.top, name, self.uses, jobs, self.ended)

    def say_progress(self, news=""):
        working = ", ".join(f"{name} {it.seconds()} s" for name, it in self.at_work.items())
        say(f"{len(self.proved)} of {len(self.weight)} crates proved after {int(time.monotonic() - self.since)} s"
            + (f": {news}" if news else "") + (f"; at work: {working}" if working else ""))

    def run(self):
        say(f"proving {len(self.weight)} crates by up to {self.lanes} processes; what is proved already is kept")
        while len(self.proved) < len(self.weight):
            self.start_ready()
            try:
                proof = self.ended.get(timeout=30)
            except queue.Empty:
                self.say_progress()
                continue
            del self.at_work[proof.name]
            if not proof.is_proved:
                raise kit.Refused(f"{proof.name} isn't proved\n{proof.told[-4000:]}")
            self.proved.add(proof.name)
            self.say_progress(f"{proof.name} took {proof.seconds()} s")

    def stop(self):
        """Ends the running proofs. What they have left is moved back."""
        for proof in self.at_work.values():
            proof.stop()
        for proof in self.at_work.values():
            proof.thread.join()


def clear_trees(top):
    """Removes the trees. What a killed proof has left in one is moved back to its crate."""
    trees = f"{top}/out/trees"
    for name in os.listdir(trees) if os.path.isdir(trees) else []:
        Tree(top, name).clear()
    shutil.rmtree(trees, ignore_errors=True)


def interrupted(_number, _frame):
    raise KeyboardInterrupt


def prove(top, goals):
    """Proves the goals and all that they depend on. Only one build runs in a checkout at a time."""
    for number in (signal.SIGTERM, signal.SIGHUP):
        signal.signal(number, interrupted)
    with locked(f"{top}/crates.txt", "waiting for another build in this checkout"):
        clear_trees(top)
        proofs = Proofs(top, goals)
        try:
            proofs.run()
        finally:
            proofs.stop()
            clear_trees(top)
