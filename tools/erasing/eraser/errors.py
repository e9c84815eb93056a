"""Writes out what thiserror's derive makes of an enum or a struct with `#[error(..)]` texts, so that no proc macro is needed."""
import re


def fields_of(source, i):
    """The fields after the name of a variant or struct at token `i`: how they are written, and the number of the last token of them."""
    if source.has(i + 1, "("):
        end = source.close_of(i + 1)
        return "tuple", end
    if source.has(i + 1, "{"):
        return "named", source.close_of(i + 1)
    return "none", i


def pattern(kind, text):
    """The pattern that names the fields which the text shows, and the text with their names."""
    shown = sorted(set(re.findall(r"\{(\w+)", text)))
    if kind == "none":
        return "", text
    if kind == "named":
        return " { " + "".join(f"{name}, " for name in shown) + ".. }", text
    names = [f"f{k}" if str(k) in shown else "_" for k in range(int(shown[-1]) + 1 if shown else 0)]
    return "(" + "".join(f"{name}, " for name in names) + "..)", re.sub(r"\{(\d+)", r"{f\1", text)


def arms(source, i, end, path):
    """The arms of the `match` that writes each text between the tokens `i` and `end`. `path` stands before a variant's name."""
    made = []
    while i < end:
        if not source.has(i, "#", "[", "error", "("):
            i += 1
            continue
        text = source.text_at(i + 4)
        i = source.close_of(i + 1) + 1
        kind, _ = fields_of(source, i)
        shape, text = pattern(kind, text)
        made.append(f"            {path}{source.text_at(i)}{shape} => write!(f, {text}),")
    return made


def of_struct(source, i, name):
    """The one arm of a struct, whose text stands above it, from token `i` on."""
    while not source.has(i, "error", "("):
        i += 1
    text = source.text_at(i + 2)
    kind, _ = fields_of(source, source.next_of(i, (name,)))
    shape, text = pattern(kind, text)
    return [f"            {name}{shape} => write!(f, {text}),"]


def impls(source, i):
    """The lines of `Display` and `Error` for the type that follows token `i`, which ends its derive."""
    place = source.next_of(i, ("enum", "struct"))
    name = source.text_at(place + 1)
    params = ""
    if source.has(place + 2, "<"):
        params = source.between(place + 2, source.next_of(place + 2, ">"))
        if not re.fullmatch(r"<\w+>", params):
            source.refuse(place, "an error type with other parameters than one type")
    if source.has(place, "enum"):
        body = source.next_of(place, "{")
        made = arms(source, body, source.close_of(body), f"{name}::")
    else:
        made = of_struct(source, i, name)
    shown = params.replace(">", ": core::fmt::Debug>")
    return [f"impl{params} core::fmt::Display for {name}{params} {{", "    fn fmt(&self, f: &mut core::fmt::Formatter<'_>) -> core::fmt::Result {",
            "        match self {", *made, "        }", "    }", "}", f"impl{shown} core::error::Error for {name}{params} {{}}"]
