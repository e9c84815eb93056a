"""The program `ttd`, with whose output the page is compared."""
import os
import subprocess
import tempfile
from concurrent.futures import ThreadPoolExecutor

TOP = os.path.dirname(os.path.dirname(os.path.dirname(os.path.realpath(__file__))))
PROGRAM = os.environ.get("YOVANELUM_TTD", os.path.join(TOP, "rust", "built", "x86_64-linux", "ttd"))
# The page that is tested, and the folder for pictures of it.
PAGE = os.path.join(TOP, "rust", "built", "yovanelum.html")
PICTURES = os.path.join(os.environ.get("YOVANELUM_OUT", os.path.join(TOP, "out")), "page")


def answer(words, given=b""):
    """What the program writes."""
    return subprocess.run([PROGRAM, *words], input=given, stdout=subprocess.PIPE, stderr=subprocess.DEVNULL, timeout=600).stdout


def session(script):
    return answer(["session"], script)


def record(script):
    with tempfile.NamedTemporaryFile() as file:
        file.write(script)
        file.flush()
        return answer(["record", file.name])


def check(journal):
    with tempfile.NamedTemporaryFile() as file:
        file.write(journal)
        file.flush()
        return answer(["check", file.name]).decode()


def debug(journal, commands):
    with tempfile.NamedTemporaryFile() as file:
        file.write(journal)
        file.flush()
        return answer(["debug", file.name], commands)


def each(ask, cases):
    """The program's output for many cases, which run side by side."""
    with ThreadPoolExecutor(os.cpu_count()) as pool:
        return list(pool.map(lambda case: ask(*case), cases))


def rounds(few, many):
    """How often something random is done: so often, or as the second number says where the variable YOVANELUM_SLOW is set, as by `test slow`."""
    return many if "YOVANELUM_SLOW" in os.environ else few
