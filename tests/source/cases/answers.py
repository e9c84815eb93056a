"""The answers of the kit's program to all cases, which are kept so that many other programs can be compared with them."""
import hashlib
import os
import pickle
import shutil
import tempfile

from cases import journals, limits, running, scripts, sessions
from cases.case import FILE, Case

PARTS = {"scripts": scripts, "sessions": sessions, "journals": journals, "limits": limits}
# Of a part with larger files the cases are made again each time, and only the answers are kept.
LARGE = ("limits",)


def digest(answer):
    return hashlib.blake2b(b"%d %d " % (answer.status, len(answer.out)) + answer.out + b"\0" + answer.err, digest_size=16).digest()


class Folder:
    """A folder in which programs are run."""

    def __init__(self):
        self.path = tempfile.mkdtemp(prefix="planted.", dir="/dev/shm" if os.path.isdir("/dev/shm") else None)

    def answer(self, program, case):
        running.lay(self.path, case)
        return running.run(program, self.path, case)

    def digest(self, kit, case):
        """The digest of an answer of the kit's program, which always ends by itself."""
        answer = self.answer(kit, case)
        if answer.status < 0:
            raise RuntimeError(f"{case.name}: {kit} was ended, with status {answer.status}")
        return digest(answer)

    def remove(self):
        shutil.rmtree(self.path, ignore_errors=True)


def made(kit, seed, counts):
    """All cases by part: each with its answer, or of a large part the answers alone, by number."""
    folder = Folder()
    try:
        record = lambda script: folder.answer(kit, Case("", ("record", FILE), script)).out
        found = {}
        for part, count in counts.items():
            numbers = range(count)
            if part in LARGE:
                found[part] = [[folder.digest(kit, case) for case in PARTS[part].cases(seed, number, record)] for number in numbers]
            else:
                found[part] = [(case, folder.digest(kit, case)) for number in numbers for case in PARTS[part].cases(seed, number, record)]
        return found
    finally:
        folder.remove()


def kept(path, kit, seed, counts):
    """The same, from a file of an earlier call where there is one."""
    if not os.path.exists(path):
        found = made(kit, seed, counts)
        with open(f"{path}.part", "wb") as file:
            pickle.dump(found, file)
        os.rename(f"{path}.part", path)
    with open(path, "rb") as file:
        return pickle.load(file)


def pairs(part, found, seed):
    """The cases of a part with their answers, one after the other."""
    if part not in LARGE:
        yield from found[part]
        return
    for number in reversed(range(len(found[part]))):
        yield from zip(PARTS[part].cases(seed, number, None), found[part][number])


def first_difference(program, folder, part, found, seed):
    """The name of the first case that a program answers otherwise, or None."""
    for case, wanted in pairs(part, found, seed):
        if digest(folder.answer(program, case)) != wanted:
            return case.name
    return None
