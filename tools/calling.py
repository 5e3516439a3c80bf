#!/usr/bin/env python3
"""calling.py: writes docs/CALLING.md from the crate `callers`.

Each module of the crate calls one library, of which its first line says what it is. With --check it
writes nothing, and fails where the page is not the one that it would write."""

import os
import re
import sys

REPOSITORY = os.path.dirname(os.path.dirname(os.path.abspath(__file__)))
HEAD = """# Calling the crates

A short caller of each crate that a user may call. They are the modules of the crate `callers`,
and each is proved as it stands here. `tools/calling.py` writes this page from them.

What allocates takes an allocator, and out of memory is an error like another. A clause sees a
slice as a list, a text as the list of its bytes, and a value of a crate by the crate's `specs/`.
`docs/DEFINITIONS.md` says what each file there holds.
"""


def crates():
    """The libraries in the order of crates.txt."""
    with open(os.path.join(REPOSITORY, "crates.txt"), encoding="utf-8") as file:
        return re.findall(r"(?m)^(\w+)[^:\n]*:", file.read())


def caller(name):
    """What the crate is, and the code of its caller."""
    path = os.path.join(REPOSITORY, "crates", "callers", "src", f"{name}.rt")
    with open(path, encoding="utf-8") as file:
        first, code = file.read().split("\n", 1)
    said = re.fullmatch(r"//! `(\w+)`: (.*)", first)
    if said is None or said.group(1) != f"yl_{name}":
        sys.exit(f"{name}.rt: the first line does not say what yl_{name} is")
    return said.group(2), code.strip()


def page():
    folder = os.path.join(REPOSITORY, "crates", "callers", "src")
    names = {file[:-3] for file in os.listdir(folder)} - {"lib"}
    parts = [HEAD]
    for crate in crates():
        name = crate.removeprefix("yl_")
        if crate.startswith("yl_") and name in names:
            said, code = caller(name)
            said = said[0].upper() + said[1:]
            parts.append(f"\n## {crate}\n\n{said}\n\n```rust\n{code}\n```\n")
            names.remove(name)
    if names:
        sys.exit(f"no crates: {', '.join(sorted(names))}")
    return "".join(parts)


def put(name, text):
    """Writes a page of docs/, or under --check only compares it."""
    path = os.path.join(REPOSITORY, "docs", name)
    if "--check" not in sys.argv[1:]:
        with open(path, "w", encoding="utf-8") as file:
            file.write(text)
        return
    with open(path, encoding="utf-8") as file:
        if file.read() != text:
            sys.exit(f"docs/{name} is not what {os.path.basename(sys.argv[0])} writes now")


if __name__ == "__main__":
    put("CALLING.md", page())
