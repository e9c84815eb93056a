"""Rust's tokens, as rustc reads them: what it takes for a comment or a string is one here."""
import re
import typing

TOKEN = re.compile(
    r"""(?P<comment>//[^\n]*|/\*.*?\*/)|(?P<space>\s+)
    |(?P<string>[bc]?r(?P<fence>\#*)".*?"(?P=fence)|[bc]?"(?:\\.|[^"\\])*")
    |(?P<char>b?'(?:\\x[0-9a-fA-F]{2}|\\u\{[^}]*\}|\\.|[^'\\\n])')
    |(?P<life>'[A-Za-z_]\w*)|(?P<word>(?:r\#)?[^\W\d]\w*)|(?P<number>\d\w*)
    |(?P<sign>::|->|=>|\.\.=|\.\.\.|\.\.|&&|\|\||==|!=|<=|>=|.)""",
    re.X | re.S,
)
OPENING, CLOSING = "([{", ")]}"


class Token(typing.NamedTuple):
    """One token, with the number of the line where it begins."""

    kind: str
    text: str
    line: int


def tokens(text):
    """All tokens but spaces."""
    found, line = [], 1
    for one in TOKEN.finditer(text):
        if one.lastgroup != "space":
            kind = "string" if one.lastgroup == "fence" else one.lastgroup
            found.append(Token(kind, one.group(), line))
        line += one.group().count("\n")
    return found


class Code:
    """The tokens of a file that are neither spaces nor comments."""

    def __init__(self, found):
        self.tokens = [token for token in found if token.kind != "comment"]
        self.texts = [token.text for token in self.tokens]
        self.opened_at = {}
        self.brackets = list(self.all_brackets())
        self.functions = list(self.all_functions())
        self.uses = list(self.all_uses())

    def all_brackets(self):
        """For each token the number of the innermost bracket that is open before it, or -1."""
        opened = [-1]
        for i in range(len(self.tokens)):
            if self.is_sign(i, CLOSING) and len(opened) > 1:
                self.opened_at[i] = opened.pop()
            yield opened[-1]
            if self.is_sign(i, OPENING):
                opened.append(i)

    def all_functions(self):
        """For each token the name of the last function that begins before it."""
        name = ""
        for i in range(len(self.tokens)):
            name = self.text(i) if self.has(i - 1, "fn") else name
            yield name

    def all_uses(self):
        """For each token whether it stands in a `use`."""
        is_use = False
        for i in range(len(self.tokens)):
            is_use = self.has(i, "use") or is_use and not self.has(i, ";")
            yield is_use

    def opening(self, i):
        """The number of the innermost bracket around token `i`, or -1."""
        return self.brackets[i]

    def pair_of(self, i):
        """The number of the bracket that the one at `i` closes."""
        return self.opened_at.get(i, i)

    def function(self, i):
        return self.functions[i]

    def in_use(self, i):
        return 0 <= i < len(self.uses) and self.uses[i]

    def is_member(self, i, words):
        """Whether token `i` stands in the braces of an item that begins with one of these words, as `impl` or `trait`."""
        k = self.brackets[i] - 1
        while k >= 0 and not self.is_sign(k, "{};"):
            if self.text(k) in words:
                return True
            k -= 1
        return False

    def __len__(self):
        return len(self.tokens)

    def text(self, i):
        """The text of token `i`, or an empty one past either end."""
        return self.texts[i] if 0 <= i < len(self.texts) else ""

    def kind(self, i):
        return self.tokens[i].kind if 0 <= i < len(self.tokens) else ""

    def has(self, i, *texts):
        """Whether the tokens from `i` on have these texts."""
        return i >= 0 and self.texts[i : i + len(texts)] == list(texts)

    def is_sign(self, i, signs):
        return self.kind(i) == "sign" and self.text(i) in signs

    def close_of(self, i):
        """The number of the bracket that closes the one at `i`, or that of the last token."""
        depth = 0
        for k in range(i, len(self.tokens)):
            depth += self.is_sign(k, OPENING) - self.is_sign(k, CLOSING)
            if depth == 0:
                return k
        return len(self.tokens) - 1

    def next_of(self, i, ends):
        """The number of the first token from `i` on that is one of `ends`, outside of brackets, or that after the last."""
        while i < len(self.tokens) and self.text(i) not in ends:
            i = self.close_of(i) + 1 if self.is_sign(i, OPENING) else i + 1
        return i

    def ends_operand(self, i):
        """Whether an expression can end with token `i`."""
        return self.kind(i) in ("word", "number", "string", "char") or self.is_sign(i, ")]}?")
