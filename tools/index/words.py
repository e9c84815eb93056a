"""A clause in plain English: when it holds, and what it is about."""
import os
import re

from . import items
from .crate import read_text

# How clauses begin that hold of some results alone, and when that is.
CONDITIONS = (
    (re.compile(r"(?:IfOk|OnOk) result\b"), "if it is `Ok`"),
    (re.compile(r"(?:IfErr|OnErr) result\b"), "if it is an error"),
    (re.compile(r"(?:IfSome result|IsSome result →)"), "if it is `Some`"),
    (re.compile(r"(?:IfNone result|IsNone result →)"), "if it is `None`"),
    (re.compile(r"result ≡ (\d+) →"), "if it is {}"),
    (re.compile(r"result < (\d+) →"), "if it is below {}"),
    (re.compile(r"(\d+) < result →"), "if it is above {}"),
)
# How clauses without a name begin, and what these are about.
SHAPES = (
    (re.compile(r"(?:IfOk|OnOk|IfSome|MatchResult) result\b|result(?:\.\w+)* ≡|option_map|call_of result ≡"), "the result"),
    (re.compile(r"IsTrue result ↔"), "exactly when it is true"),
    (re.compile(r"IsNone result ↔"), "exactly when it is `None`"),
)


class Words:
    """The table of words.txt."""

    def __init__(self):
        self.table, path = {}, f"{os.path.dirname(os.path.realpath(__file__))}/words.txt"
        for number, line in enumerate(read_text(path).split("\n"), 1):
            name, colon, says = line.partition(": ")
            if line and not line.startswith("#"):
                if not colon or name in self.table or list(self.table) > [*self.table, name]:
                    raise items.Refused(f"tools/index/words.txt:{number}: no new name with its words")
                self.table[name] = says

    def about(self, clause, head):
        """What the clause says by the comment of the definition that it is, or what it is about."""
        if head and head.says and "the same" not in head.says:
            return head.says.rstrip(".")
        if clause.name:
            return self.table.get(clause.name, clause.name.replace("_", " "))
        if clause.kind == "requires":
            return "what must hold before the call"
        return next((says for shape, says in SHAPES if shape.match(clause.body)), "what holds after the call")

    def of(self, clause, head):
        """The clause's own comment, or what it is about and of which results. `head` is the definition that it is, if it is one."""
        if clause.comment:
            return clause.comment
        found = next(((shape.match(clause.body), says) for shape, says in CONDITIONS if shape.match(clause.body)), None)
        about = self.about(clause, head)
        if not found:
            return f"{about[0].upper()}{about[1:]}."
        when = found[1].format(*found[0].groups())
        return f"{when[0].upper()}{when[1:]}: {about[0].lower()}{about[1:]}."
