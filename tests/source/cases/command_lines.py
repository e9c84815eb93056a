"""Random command lines: the words of commands and flags, and words that are neither, in any order and number."""
from cases.case import FILE, Case, random_of

# How many numbers there are, and how many command lines each has.
NUMBERS, EACH = 100, 20
COMMANDS = ("session", "record", "check", "debug", "salvage", "help")
FLAGS = ("--threads", "--", "-h", "--help", "-", "", "-x", "-hx", "-xh", "--foo", "--foo=b", "--threads=x", "--threads=", "--help=1", "--=", "-=", "---", "-é", "--é=é")
OTHERS = (FILE, FILE, "a", "b c", "é", "walk", "recrd", "Session", "session ", "\n", "x" * 500)


def words_of(random):
    """Most begin with a command, and have few words more, so that a part of them is accepted."""
    words = [random.choice(COMMANDS)] if random.random() < 0.8 else []
    return *words, *(random.choice(random.choice((COMMANDS, FLAGS, OTHERS, (FILE, "--threads", "--")))) for _ in range(random.randrange(5)))


def cases(seed, number, _):
    random = random_of(seed, "words", number)
    for line in range(EACH):
        yield Case(f"words {number} {line}", words_of(random), b"broadcast 1\n")
