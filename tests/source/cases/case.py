"""A run of the program that both builds are asked for, and its answer."""
import random
import typing

# Stands in the words of a case for the path of its file.
FILE = "FILE"
MOST = {"value": 2**64 - 1, "handle": 2**32 - 1, "stamp": 2**62}


class Case(typing.NamedTuple):
    """The words of a command line, the bytes of the file that one of them names, and those of standard input."""
    name: str
    words: tuple
    file: bytes = b""
    stdin: bytes = b""


class Answer(typing.NamedTuple):
    status: int
    out: bytes
    err: bytes


def random_of(seed, part, number):
    """The random numbers of one case. They don't depend on other cases, so each can be made again alone."""
    return random.Random(f"{seed} {part} {number}")
