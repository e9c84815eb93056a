"""Random sessions: a script, and commands over its run."""
from cases.case import Case, random_of
from cases.commands import Run, commands
from cases.scripts import odd_text, script_of


def cases(seed, number, _record):
    random = random_of(seed, "sessions", number)
    script = script_of(random, 500 if number % 16 == 3 else 120)
    text = odd_text(random, script) if random.random() < 0.07 else "\n".join(script.lines).encode() + b"\n"
    if not text.endswith(b"\n"):
        text += b"\n"
    return [Case(f"sessions {number}", ("session",), stdin=text + b"---\n" + commands(random, Run(script)))]
