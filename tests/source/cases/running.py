"""Runs a program on a case, by files in a folder: that takes a fraction of what pipes take."""
import os
import resource
import signal

from cases.case import FILE, Answer

MOST_MEMORY = 8 << 30
MOST_OUTPUT = 1 << 30
# A program is ended after this time on a processor, and, since it may wait for what never happens, after a much longer time in any case.
MOST_SECONDS = 60
MOST_WAITING = 1800
IN, OUT, ERR = "stdin", "stdout", "stderr"


class TooLong(Exception):
    """The program doesn't end."""


def _too_long(_number, _frame):
    raise TooLong


def prepare():
    """To be called once in each process that runs programs: what these may take."""
    resource.setrlimit(resource.RLIMIT_AS, (MOST_MEMORY, MOST_MEMORY))
    resource.setrlimit(resource.RLIMIT_FSIZE, (MOST_OUTPUT, MOST_OUTPUT))
    resource.setrlimit(resource.RLIMIT_CORE, (0, 0))
    signal.signal(signal.SIGALRM, _too_long)


def put(path, data):
    with open(path, "wb") as file:
        file.write(data)


def get(path):
    with open(path, "rb") as file:
        return file.read()


def lay(folder, case):
    """Writes the files of a case into a folder."""
    put(f"{folder}/{IN}", case.stdin)
    if FILE in case.words:
        put(f"{folder}/{FILE}", case.file)


def run(program, folder, case):
    """Runs a program on the case whose files are in the folder."""
    words = [program, *(f"{folder}/{FILE}" if word == FILE else word for word in case.words)]
    return start(words, f"{folder}/{IN}", folder, os.environ)


def start(words, given, folder, environment):
    """Starts a program with a file as its standard input, and returns how it ended. Its output goes to files in the folder. Its status is
    negative where a signal ended it, and -1000 where it didn't end in time."""
    actions = [(os.POSIX_SPAWN_OPEN, 0, given, os.O_RDONLY, 0)]
    actions += [(os.POSIX_SPAWN_OPEN, number, f"{folder}/{name}", os.O_WRONLY | os.O_CREAT | os.O_TRUNC, 0o600) for number, name in ((1, OUT), (2, ERR))]
    child = os.posix_spawn(words[0], words, environment, file_actions=actions)
    resource.prlimit(child, resource.RLIMIT_CPU, (MOST_SECONDS, MOST_SECONDS))
    signal.setitimer(signal.ITIMER_REAL, MOST_WAITING)
    try:
        status = os.waitstatus_to_exitcode(os.waitpid(child, 0)[1])
    except TooLong:
        os.kill(child, signal.SIGKILL)
        os.waitpid(child, 0)
        status = -1000
    finally:
        signal.setitimer(signal.ITIMER_REAL, 0)
    return Answer(status, get(f"{folder}/{OUT}"), get(f"{folder}/{ERR}"))
