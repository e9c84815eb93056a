"""A Rattle source as tokens. Everything else of the eraser asks for tokens by their number."""
import re

TOKEN = re.compile(
    r"""(?P<doc>//[/!][^\n]*)|(?P<comment>//[^\n]*|/\*.*?\*/)|(?P<space>\s+)
    |(?P<string>b?r\#*"(?:.*?)"\#*|b?"(?:\\.|[^"\\])*")
    |(?P<char>b?'(?:\\.[^']*|[^'\\])')|(?P<life>'[A-Za-z_]\w*)
    |(?P<word>[^\W\d]\w*)|(?P<number>\d\w*)|(?P<sign>::|->|=>|\.\.=|\.\.|.)""",
    re.X | re.S,
)
CLOSING = {"{": "}", "(": ")", "[": "]"}


class Refused(Exception):
    """A source has a form for which there is no Rust. The text says where."""


class Token:
    """One token: its kind, its text, and the places of its first byte and of the one after its last."""

    __slots__ = ("kind", "text", "start", "end")

    def __init__(self, found):
        self.kind, self.text, self.start, self.end = found.lastgroup, found.group(), found.start(), found.end()


class Source:
    """The text of a source. `all` has every token, and `code` those that are neither spaces nor comments."""

    def __init__(self, path, text, saturated=()):
        self.path, self.text = path, text
        # The casts that become calls of the shim, as pairs of a function and the cast.
        self.saturated = saturated
        self.all = [Token(found) for found in TOKEN.finditer(text)]
        self.code = [token for token in self.all if token.kind not in ("space", "comment", "doc")]

    def refuse(self, i, why):
        """Ends the erasing of this file, with the line of token `i`."""
        line = self.text.count("\n", 0, self.code[min(i, len(self.code) - 1)].start) + 1
        raise Refused(f"{self.path}:{line}: {why}")

    def function_at(self, i):
        """The name of the last function that begins before token `i`."""
        return next((self.text_at(k + 1) for k in range(i, -1, -1) if self.has(k, "fn")), "")

    def text_at(self, i):
        """The text of token `i`, or an empty one past either end."""
        return self.code[i].text if 0 <= i < len(self.code) else ""

    def has(self, i, *texts):
        """Whether the tokens from `i` on have these texts."""
        return all(self.text_at(i + k) == text for k, text in enumerate(texts))

    def opens(self, i):
        """Whether token `i` is an opening bracket."""
        return self.code[i].kind == "sign" and self.code[i].text in CLOSING

    def close_of(self, i):
        """The number of the bracket that closes the one at `i`."""
        depth = 0
        for k in range(i, len(self.code)):
            if self.opens(k):
                depth += 1
            elif self.code[k].kind == "sign" and self.code[k].text in CLOSING.values():
                depth -= 1
                if depth == 0:
                    return k
        self.refuse(i, "a bracket that isn't closed")

    def next_of(self, i, ends):
        """The number of the first token from `i` on that is one of `ends`, outside of brackets that open on the way."""
        start = i
        while i < len(self.code):
            if self.code[i].text in ends:
                return i
            i = self.close_of(i) + 1 if self.opens(i) else i + 1
        self.refuse(start, f"none of {' '.join(ends)} follows")

    def between(self, first, last):
        """The text from token `first` to token `last`, both with it."""
        return self.text[self.code[first].start : self.code[last].end]
