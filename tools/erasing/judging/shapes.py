"""Forms that are refused by their shape: several tokens, or where they stand."""


def open_range(code, i):
    """A range without an end, as `250u8..`. As an index, as in `bytes[1..]`, it means the same."""
    if not code.ends_operand(i - 1):
        return None
    if code.text(i + 1) not in (")", "]", "}", ",", ";", "{", "=>", "."):
        return None
    bracket = code.opening(i)
    if code.has(bracket, "[") and code.ends_operand(bracket - 1) and code.has(i + 1, "]"):
        return None
    return "a range without an end: Rust's overflows at the top of its type"


def base(code, i):
    """`..base` in the value of a struct. With every field written, Rattle doesn't read it."""
    if code.text(i - 1) not in (",", "{") or code.text(i + 1) in ("}", ")", "]", ",", "=>"):
        return None
    return "`..` and a value in a struct: with every field written, Rattle doesn't read the value"


def array_pattern(code, i):
    """Elements of an array within another pattern of a `let`: where that fails, they are dropped in another order. Where one of them is a literal,
    all are of a type that has nothing to drop."""
    end = code.next_of(i + 1, ("=", ":", ";"))
    for k in range(i + 1, end):
        if code.has(k, "[") and code.opening(k) > i and not has_literal(code, k):
            return "the pattern of an array within that of a `let`: elements are dropped in another order"
    return None


def has_literal(code, bracket):
    """Whether one of the elements within a bracket is a literal."""
    return any(code.opening(k) == bracket and code.kind(k) in ("char", "number", "string") for k in range(bracket, code.close_of(bracket)))


def clone(code, i):
    """A `clone` whose result is used as it is. In Rattle that is a `Result`, so in a chain the items are others."""
    if code.has(i - 1, "fn") or code.has(i - 1, ".") and code.has(i + 1, "(", ")", "?"):
        return None
    return "`clone` without `?`: in Rattle it returns a `Result`"


def written(code, i):
    """`write!` outside of a function `fmt`: to a `String` it has another error type."""
    if not code.has(i + 1, "!") or code.function(i) == "fmt":
        return None
    return "`write!` outside of `fmt`: to a `String` it has another error"


def spawn(code, i):
    """A thread whose handle isn't kept."""
    is_kept = code.has(i - 5, "let") and code.kind(i - 4) == "word" and not code.text(i - 4).startswith("_") and code.has(i - 3, "=")
    if is_kept and code.kind(i - 2) == "word" and code.has(i - 1, ".") and code.has(i + 1, "("):
        return None if any(code.has(k, ".", "join", "(") for k in range(len(code))) else "a thread that isn't joined in this file"
    return "`spawn` without a `let` that keeps its handle: in Rattle the value of a thread that isn't joined is never dropped"


def drop(code, i):
    """An `impl Drop`: Rattle's takes the value, and Rust would run it elsewhere."""
    if code.has(i + 1, "for"):
        return "an `impl Drop` with code of its own"
    return "the bound or derive `Drop`, which means something else in Rust"


def blanket(code, i):
    """An `impl` for a type parameter: a method call may pick it in one language alone."""
    if not code.has(i, "impl", "<"):
        return None
    close = i + 1
    while close < len(code) and not code.has(close, ">"):
        close += 1
    params = {code.text(k + 1) for k in range(i + 1, close) if code.text(k) in ("<", ",")}
    body = code.next_of(i, "{;")
    is_blanket = any(code.has(k, "for") and code.text(k + 1) in params and code.text(k + 2) in ("{", "where") for k in range(close, body))
    return "an `impl` for any type: a method call may pick it in one language alone" if is_blanket else None


def self_reference(code, i):
    """A type with `&Self` as a parameter: a method call on it may pick another `impl`."""
    if code.has(i + 1, "&", "Self", ">"):
        return "a type of `&Self`: a method call on it may pick another `impl`"
    return None


def pointer(code, i):
    """A raw pointer."""
    return "a raw pointer" if code.text(i + 1) in ("const", "mut") else None


def glob(code, i):
    """An import of all names: it could hide names of Rust's prelude."""
    return "an import of all names" if code.has(i + 1, "*") and code.in_use(i) else None


# The rules by the token with which they begin.
RULES = {"..": (open_range, base), "let": (array_pattern,), "clone": (clone,), "write": (written,), "spawn": (spawn,), "Drop": (drop,),
         "impl": (blanket,), "<": (self_reference,), ",": (self_reference,), "*": (pointer,), "::": (glob,)}
