"""Forms that are refused by a word, a macro or an attribute alone."""
import re

# Words that may not stand in the code, and why.
WORDS = {
    "requires": "a contract that isn't erased",
    "ensures": "a contract that isn't erased",
    "ghost": "a contract that isn't erased",
    "unsafe": "its claims would be the author's, and the compiler wouldn't check them",
    "extern": "another language's functions have no contract",
    "static": "global state",
    "union": "reading a field of it is unsafe",
    "async": "Rattle has none",
    "await": "Rattle has none",
    "macro_rules": "a macro of its own may expand otherwise in Rust",
    "anyhow": "`{:?}` and `{:#}` of its error print other texts",
    "size_of": "Rust orders the fields of types",
    "size_of_val": "Rust orders the fields of types",
    "align_of": "Rust orders the fields of types",
    "align_of_val": "Rust orders the fields of types",
    "type_name": "types have other names",
    "TypeId": "types have other names",
    "HashMap": "its order is another",
    "HashSet": "its order is another",
    "f32": "`as` and printing differ for floats",
    "f64": "`as` and printing differ for floats",
    "Index": "under a bound `Index` a method call may pick another impl",
    "IndexMut": "under a bound `Index` a method call may pick another impl",
    "into_iter": "`Option::into_iter` returns another type",
    "Infallible": "`try_from` has another error type where it can't fail",
    "TryFromIntError": "`try_from` has another error type where it can't fail",
    "cloned": "the items may be `Result`s in Rattle",
    "try_send": "on a bounded channel between threads both orders may be seen",
    "try_recv": "on a bounded channel between threads both orders may be seen",
    "crossbeam_channel": "on a bounded channel between threads both orders may be seen",
    "stringify": "long texts break in Rust",
    "get_unchecked": "an index without a check",
    "get_unchecked_mut": "an index without a check",
}
MACROS = ("format", "json", "matches", "unreachable", "vec", "write")
ATTRIBUTE = re.compile(r"# \[ (?:inline|inline \( (?:always|never) \)|derive \( (?:(?:Clone|Copy|Debug|Eq|PartialEq)(?: , )?)+ \)) \]")
# What can stand before `!` and a bracket without being a macro.
KEYWORDS = ("as", "break", "else", "if", "in", "match", "return", "while")
# Names of Rust's prelude, and its basic types. An item or an import with such a name would take its place.
PRELUDE = set("""Option Some None Result Ok Err Vec String Box ToString ToOwned Clone Copy Send Sync Sized Drop Fn FnMut FnOnce AsyncFn drop
    AsRef AsMut Into From Default Iterator Extend IntoIterator DoubleEndedIterator ExactSizeIterator Eq PartialEq Ord PartialOrd TryFrom TryInto
    FromIterator Unpin bool char str u8 u16 u32 u64 u128 usize i8 i16 i32 i64 i128 isize""".split())
ITEMS = ("struct", "enum", "trait", "type", "const", "mod", "fn")
# Methods that Rust gives to any type, and so may pick in place of a trait's own.
OF_ANY_TYPE = ("into", "try_into", "from", "try_from", "borrow", "borrow_mut", "to_string", "to_owned", "clone_into", "type_id", "into_iter")


def word(code, i):
    """A word that is refused, or a raw identifier."""
    text = code.text(i)
    if code.kind(i) != "word":
        return None
    if text in WORDS:
        return f"`{text}`: {WORDS[text]}"
    if code.has(i, "iter", "::") and code.text(i + 2) in ("once", "empty"):
        return f"`iter::{code.text(i + 2)}`: it returns another type"
    if text.startswith("r#") or not text.isascii():
        return f"the name `{text}`"
    return None


def macro(code, i):
    """A macro that isn't in the list, by its `!`."""
    name = code.text(i - 1)
    if code.kind(i - 1) != "word" or not code.is_sign(i + 1, "([{") or name in MACROS or name in KEYWORDS:
        return None
    return f"the macro `{name}!`, which isn't in the list"


def attribute(code, i):
    """An attribute that isn't in the list: as `cfg`, `test`, `repr` and `allow`."""
    bracket = i + 2 if code.has(i + 1, "!") else i + 1
    text = " ".join(token.text for token in code.tokens[i : code.close_of(bracket) + 1])
    return None if ATTRIBUTE.fullmatch(text) else f"the attribute `{text.replace(' ', '')}`, which isn't in the list"


def item(code, i):
    """An item with a name of Rust's prelude. A method may have one, as it doesn't hide it."""
    name = code.text(i + 1)
    if name not in PRELUDE or code.has(i, "fn") and code.is_member(i, ("impl", "trait")) or code.has(i - 1, "*"):
        return None
    return f"`{name}` would hide a name of Rust's prelude"


def imported(code, i):
    """An import of a name of Rust's prelude, by the sign after it."""
    if not code.in_use(i - 1) or code.text(i - 1) not in PRELUDE:
        return None
    return f"`{code.text(i - 1)}` would hide a name of Rust's prelude"


def method(code, i):
    """A method of a trait with a name that Rust gives to any type."""
    if code.text(i + 1) in OF_ANY_TYPE and code.is_member(i, ("trait",)):
        return f"a trait's method `{code.text(i + 1)}`: Rust has one of this name for any type, and a call may pick it"
    return None


# The rules by the token with which they begin.
RULES = {"!": (macro,), "#": (attribute,), "fn": (item, method), ";": (imported,), ",": (imported,), "}": (imported,),
         **{name: (item,) for name in ITEMS if name != "fn"}}
