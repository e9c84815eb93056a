"""Makes the page's one file from its parts: the style, the scripts, the debugger's module."""
import base64
import hashlib
import os
import re
import subprocess
import tempfile
import zlib

# Names and statements stay as they are, so that a browser's tools, which lay them out again, show what can be read.
BUNDLE = ("--bundle", "--format=iife", "--charset=utf8", "--minify-whitespace", "--legal-comments=none", "--log-level=warning", '--banner:js="use strict";')


class Refused(Exception):
    """Why no page is made."""


def read(*path):
    with open(os.path.join(*path), encoding="utf-8") as file:
        return file.read()


def tool(words, folder, use, refusal):
    """What a program of Debian's writes, or why it doesn't."""
    try:
        return subprocess.run(words, cwd=folder, stdout=subprocess.PIPE, check=True).stdout
    except FileNotFoundError:
        raise Refused(f"{words[0]} isn't there, which {use}: apt-get install {words[0]}") from None
    except subprocess.CalledProcessError:
        raise Refused(refusal) from None


def bundled(folder, name, *words):
    """What esbuild makes of a file in this folder, so that no path from outside is in it."""
    return tool(["esbuild", name, *words], folder, "bundles the page's scripts", f"{name} and what it imports can't be bundled").decode()


def script(folder, name):
    """One script of a module and all that it imports."""
    made = bundled(folder, f"{name}.js", *BUNDLE)
    if "</script" in made.lower():
        raise Refused("a script would end the element that it stands in")
    return made


def hash_of(text):
    return base64.b64encode(hashlib.sha256(text.encode()).digest()).decode()


def packed(part):
    """The bytes of a part as the page has them: packed, since that is a third of them, and as text. What zopfli packs, zlib unpacks, and is a twentieth
    smaller than what zlib packs."""
    with tempfile.TemporaryDirectory() as folder:
        with open(f"{folder}/part", "wb") as file:
            file.write(part)
        return base64.b64encode(tool(["zopfli", "--zlib", "-c", "part"], folder, "packs parts of the page", "a part can't be packed")).decode()


def module_of(made):
    """The module in a page, or None."""
    found = re.search(r'<script type="[\w/-]+" id="module">([^<]*)</script>', made)
    return zlib.decompress(base64.b64decode(found[1])) if found else None


def page(folder, module):
    source = os.path.join(folder, "src")
    style = bundled(source, "style.css", "--charset=utf8", "--minify-whitespace", "--log-level=warning")
    main, loader = script(source, "main"), script(source, "loader")
    parts = {
        "style": style, "style hash": hash_of(style), "loader": loader, "loader hash": hash_of(loader),
        "packed main": packed(main.encode()), "main hash": hash_of(main),
        "worker": script(source, "worker"), "module": packed(module),
        "example": read(folder, "..", "examples", "price_feed.ttd"),
        "example names": read(folder, "..", "examples", "price_feed.names"),
    }
    return re.sub(r"\{\{([\w ]+)\}\}", lambda hole: parts[hole[1]], read(source, "index.html"))
