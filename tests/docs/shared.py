"""What several tests of the documents use: the files of the repository, and how tests are run."""
import os

TOP = os.path.dirname(os.path.dirname(os.path.dirname(os.path.realpath(__file__))))


def read(*path):
    """The text of a file of the repository."""
    with open(os.path.join(TOP, *path), encoding="utf-8") as file:
        return file.read()


def put(path, text):
    """Writes a file, and the folders above it."""
    os.makedirs(os.path.dirname(path), exist_ok=True)
    with open(path, "w", encoding="utf-8") as file:
        file.write(text)


def play(tests, *given):
    """Runs tests, and prints what they say isn't so, and how many passed. Returns the status of the script."""
    failed = 0
    for test in tests:
        try:
            test(*given)
        except Exception as why:  # Whatever a test raises, the others run.
            failed += 1
            print(f"docs: {test.__doc__} Not so:\n{type(why).__name__}: {why}")
    print(f"{len(tests) - failed} passed, {failed} failed")
    return 1 if failed else 0
