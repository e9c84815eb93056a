"""Judges the lists of modules: rust/core/src/source.rs for the library, and of those in rust/core/src/source/ program.rs for the program and page.rs for the page."""
import re

HEAD = re.compile(r"(?://[^\n]*\n|\n)*#!\[allow\((?:\w+|clippy::all)(?:, (?:\w+|clippy::all))*\)\]\n\n")


def judge(rust, modules):
    """What is wrong with a list that should have these modules, or None. It has comments, one attribute that silences lints, and the modules."""
    head = HEAD.match(rust)
    if not head:
        return "a list begins with comments and one `#![allow(..)]`"
    if rust[head.end() :] != "".join(f"pub mod {name};\n" for name in modules):
        return f"after its attribute it should have these modules and nothing else: {' '.join(modules)}"
    return None
