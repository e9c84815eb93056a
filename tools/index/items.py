"""The items of a Rattle source: its functions with their contracts, and which names it exports and imports."""
import dataclasses
import re

from eraser.source import Refused, Source

MODIFIERS = ("pub", "const", "unsafe", "extern")
ALONE = ("use", "const", "static", "type", "mod")
TYPES = ("struct", "enum")
SENTENCE = re.compile(r"(?<!\.\.)[.?!](?=\s+[A-Z`\"]|\s*$)")


@dataclasses.dataclass
class Clause:
    """`requires NAME { .. }` or `ensures NAME { .. }`, and the comment above it, if there is one."""

    kind: str
    name: str
    body: str
    comment: str


@dataclasses.dataclass
class Block:
    """An `impl` or a `trait`: its type or its own name, the trait that it implements, and the definitions that it imports."""

    kind: str = ""
    name: str = ""
    trait: str = ""
    imports: list = dataclasses.field(default_factory=list)

    def trait_name(self):
        """The trait without its parameters."""
        return self.trait.partition("<")[0]


@dataclasses.dataclass
class Function:
    """A function as it is written. `start` and `end` are its places in the text, its doc comments aside, and `lines` those of its body, without
    comments and empty ones."""

    name: str
    block: Block
    is_public: bool
    doc: str
    written: str
    clauses: list
    start: int
    end: int
    lines: int


@dataclasses.dataclass
class File:
    """A source: its path in the crate, and what is declared in it."""

    path: str
    text: str
    doc: str = ""
    functions: list = dataclasses.field(default_factory=list)
    # What an `impl` or a `trait` says for contracts alone, as pairs of its block and the text: `ghost view = { .. };`.
    ghosts: list = dataclasses.field(default_factory=list)
    imports: list = dataclasses.field(default_factory=list)
    # The public modules, the types and traits, of which some are public, and what `pub use` exports, as pairs of a path and the name that it gets.
    modules: list = dataclasses.field(default_factory=list)
    types: list = dataclasses.field(default_factory=list)
    public_types: list = dataclasses.field(default_factory=list)
    exports: list = dataclasses.field(default_factory=list)


def first_sentence(text):
    """The first sentence of a text, on one line."""
    found = SENTENCE.search(text.partition("\n\n")[0])
    return " ".join((text[: found.end()] if found else text.partition("\n\n")[0]).split())


def lines_of(tokens, mark):
    """What these comments say, without their marks."""
    return "\n".join(token.text.removeprefix(mark).strip() for token in tokens)


class Reader:
    """Reads the items of one source. Each method reads what begins at token `i`, and returns the number of the token after it."""

    def __init__(self, path, shown_path, text):
        self.source, self.file = Source(shown_path, text), File(path, text)
        self.place_of = {id(token): k for k, token in enumerate(self.source.all)}
        self.file.doc = lines_of([token for token in self.source.all if token.text.startswith("//!")], "//!")

    def read(self):
        self.items(0, len(self.source.code), Block(imports=self.file.imports))
        return self.file

    def items(self, i, end, block):
        while i < end:
            i = self.item(i, block)

    def item(self, i, block):
        start, source = i, self.source
        while source.has(i, "#"):
            i = source.close_of(i + (2 if source.has(i + 1, "!") else 1)) + 1
            start = i if source.has(start + 1, "!") else start
        if source.has(i, "ghost"):
            return self.ghost(i, block)
        first = i
        while source.text_at(i) in MODIFIERS and not (source.has(i, "const") and source.code[i + 1].kind == "word" and source.has(i + 2, ":")):
            i = source.close_of(i + 1) + 1 if source.has(i, "pub", "(") else i + 1
            i += source.code[i].kind == "string"
        is_public = source.has(first, "pub") and not source.has(first + 1, "(")
        return self.declared(start, first, i, is_public, block)

    def declared(self, start, first, i, is_public, block):
        """The item whose word is token `i`, with its attributes from `start` on and its visibility at `first`."""
        source, word = self.source, self.source.text_at(i)
        if word == "fn":
            return self.function(start, first, i, is_public, block)
        if word in ALONE:
            end = source.next_of(i, ";")
            self.alone(i, end, is_public)
            return end + 1
        if word in (*TYPES, "trait"):
            self.file.types.append(source.text_at(i + 1))
            self.file.public_types += [source.text_at(i + 1)] if is_public else []
        if word in TYPES:
            end = source.next_of(i, "{;")
            return source.close_of(end) + 1 if source.has(end, "{") else end + 1
        if word in ("impl", "trait"):
            return self.block(i)
        return source.refuse(i, f"no item that is known: {word}")

    def alone(self, i, end, is_public):
        """What ends in a semicolon: a module, or an import."""
        if is_public and self.source.has(i, "mod"):
            self.file.modules.append(self.source.text_at(i + 1))
        if is_public and self.source.has(i, "use"):
            self.file.exports += exported(self.source, i, end)

    def ghost(self, i, block):
        end = self.source.next_of(i, ";")
        text = self.source.between(i, end)
        if self.source.has(i + 1, "use"):
            block.imports.append(text)
        else:
            self.file.ghosts.append((block, text))
        return end + 1

    def block(self, i):
        """An `impl` or a `trait`, and its members."""
        source = self.source
        body = source.next_of(i, "{;")
        end = source.close_of(body)
        made = block_of(source, i, body)
        if made.trait != "Drop":
            self.items(body + 1, end, made)
        return end + 1

    def function(self, start, first, i, is_public, block):
        source = self.source
        head = source.next_of(i, ("requires", "ensures", "{", ";"))
        at, clauses = head, []
        while source.text_at(at) in ("requires", "ensures"):
            clause, at = self.clause(at)
            clauses.append(clause)
        if source.text_at(at) not in ("{", ";"):
            source.refuse(at, "neither a clause nor a body")
        end = source.close_of(at) if source.has(at, "{") else at
        named = block if block.name else Block(imports=[])
        written = self.written(first, at)
        self.file.functions.append(Function(source.text_at(i + 1), named, is_public, self.doc_above(start), written, self.commented(clauses),
                                            source.code[start].start, source.code[end].end, self.lines_inside(at, end)))
        return end + 1

    def lines_inside(self, opening, closing):
        """How many lines are between two tokens, without comments and empty ones."""
        inside = self.source.text[self.source.code[opening].end : self.source.code[closing].start].split("\n")
        return sum(1 for line in inside if line.strip() and not line.strip().startswith("//"))

    def written(self, first, at):
        """The signature and the clauses as they are written, with the indentation of the function taken away."""
        start = self.source.code[first].start
        text = self.source.text[start : self.source.code[at].start].rstrip()
        indent = len(self.source.text[:start]) - len(self.source.text[:start].rstrip(" "))
        return re.sub(rf"(?m)^ {{{indent}}}", "", text)

    def clause(self, i):
        """A clause and its place. With a star it is about the end of a borrow."""
        source = self.source
        at = i + 2 if source.has(i + 1, "*") else i + 1
        kind, named = source.between(i, at - 1), source.code[at].kind == "word"
        body = at + named
        if not source.has(body, "{"):
            source.refuse(i, "a clause without braces")
        end = source.close_of(body)
        inner = " ".join(source.between(body, end)[1:-1].split())
        return (Clause(kind, source.text_at(at) if named else "", inner, ""), i), end + 1

    def commented(self, clauses):
        """The clauses with the comments right above them."""
        said = [[token for token in self.between_code(i) if token.kind == "comment"] for _, i in clauses]
        return [dataclasses.replace(clause, comment=" ".join(lines_of(found, "//").split())) for (clause, _), found in zip(clauses, said)]

    def between_code(self, i):
        """The spaces and comments right before token `i`."""
        k, found = self.place_of[id(self.source.code[i])] - 1, []
        while k >= 0 and self.source.all[k].kind in ("space", "comment", "doc"):
            found.insert(0, self.source.all[k])
            k -= 1
        return found

    def doc_above(self, i):
        return lines_of([token for token in self.between_code(i) if token.text.startswith("///")], "///")


def exported(source, i, end):
    """The names that a `pub use` exports, as pairs of a path and a name."""
    text = " ".join(source.between(i + 1, end - 1).split())
    found = re.fullmatch(r"((?:\w+::)+)(?:\{([^{}]*)\}|(\w+(?: as \w+)?))", text)
    if not found:
        source.refuse(i, f"an export in an unknown form: {text}")
    parts = [part.strip() for part in (found[2] or found[3]).split(",") if part.strip()]
    pairs = [re.fullmatch(r"(\w+)(?: as (\w+))?", part) for part in parts]
    if not all(pairs):
        source.refuse(i, f"an export in an unknown form: {text}")
    return [(found[1].removesuffix("::").split("::") + [pair[1]], pair[2] or pair[1]) for pair in pairs]


def past_generics(source, i):
    """The number of the token after the `<..>` that begins at `i`, or `i` if none does."""
    depth = 0
    while source.has(i, "<") or depth:
        depth += source.has(i, "<") - source.has(i, ">")
        i += 1
        if not depth:
            break
    return i


def path_at(source, i):
    """The last name of the path at `i`, the number of the token after it and its parameters, and the name with these."""
    while source.code[i].kind != "word":
        i += 1
    while source.has(i + 1, "::"):
        i += 2
    end = past_generics(source, i + 1)
    return source.text_at(i), end, " ".join(source.between(i, end - 1).split())


def block_of(source, i, body):
    """The head of an `impl` or of a `trait`."""
    if source.has(i, "trait"):
        return Block("trait", source.text_at(i + 1))
    name, at, trait = path_at(source, past_generics(source, i + 1))
    if not source.has(body, "{"):
        source.refuse(i, "an `impl` without a body")
    if not source.has(at, "for"):
        return Block("impl", name)
    return Block("impl", "()" if source.has(at + 1, "(", ")") else path_at(source, at + 1)[0], trait)


def read(path, shown_path, text):
    """The items of a source. `shown_path` is the one by which faults name it."""
    return Reader(path, shown_path, text).read()


__all__ = ["Refused", "first_sentence", "read"]
