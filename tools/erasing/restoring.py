"""Puts the Rattle source back from the Rust that the eraser made of it.

It knows nothing of contracts: whole lines go or lose their mark, marked words go or lose their marks, and the heads of paths are renamed.
"""
import re


def restored(rust, crate, ports):
    """The source of a file of the crate `crate`. `ports` are the crates whose modules stand in the shim."""
    lines = [line for line in rust.split("\n") if not line.endswith(" //+")]
    return "\n".join(line[4:] if line.startswith("//~") else of_kept(line, crate, ports) for line in lines)


def of_kept(line, crate, ports):
    """The source of a line that isn't erased as a whole."""
    parts = re.split(r"/\*~(.*?)~\*/", re.sub(r"/\*\+\*/.*?/\*\+\*/", "", line))
    parts[::2] = [with_heads(part, crate, ports) for part in parts[::2]]
    return "".join(parts)


def with_heads(code, crate, ports):
    """Renames `crate::source::X::` and `crate::shim::` to the names that they have in Rattle."""
    code = re.sub(r"\bcrate::shim::(%s)::" % "|".join(ports), r"\1::", code)
    code = code.replace("crate::shim::", "std::").replace(f"crate::source::{crate}::", "crate::")
    return re.sub(r"\bcrate::source::(\w+)::", r"\1::", code)
