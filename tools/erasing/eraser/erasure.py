"""What changes in a source: the parts that are erased, the words that are put in, and the lines that are added."""


class Erasure:
    """The changes of one source, which are found by contracts.py and written by rust.py."""

    def __init__(self, source):
        self.source = source
        # Erased parts, as pairs of places in the text.
        self.gone = []
        # Words that stand before a place.
        self.put = []
        # Lines at the end of the file.
        self.tail = []
        # How often each kind of change was made.
        self.counts = {}

    def count(self, kind):
        self.counts[kind] = self.counts.get(kind, 0) + 1

    def erase(self, kind, first, last):
        """Erases the tokens from `first` to `last`, both with them."""
        self.gone.append((self.source.code[first].start, self.source.code[last].end))
        self.count(kind)

    def erase_item(self, kind, first, last):
        """Erases an item, with the doc comments right above it."""
        start = self.source.code[first].start
        above = [token for token in self.source.all if token.end <= start]
        while above and above[-1].kind in ("space", "doc") and not above[-1].text.startswith("//!"):
            token = above.pop()
            if token.kind == "doc":
                self.gone.append((token.start, token.end))
        self.erase(kind, first, last)

    def put_before(self, kind, i, words):
        """Puts words before token `i`."""
        self.put.append((self.source.code[i].start, words))
        self.count(kind)

    def is_gone(self, place):
        return any(start <= place < end for start, end in self.gone)

    def kept(self):
        """The tokens of code that stay."""
        parts = iter(sorted(self.gone))
        part, kept = next(parts, None), []
        for token in self.source.code:
            while part and part[1] <= token.start:
                part = next(parts, None)
            if not part or token.start < part[0]:
                kept.append(token)
        return kept
