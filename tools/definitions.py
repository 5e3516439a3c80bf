#!/usr/bin/env python3
"""definitions.py: writes docs/DEFINITIONS.md from the heads of the files crates/*/specs/*.antt.

The first comment of each file says whether its definitions are meaning or bridge, and what they
are. With --check it writes nothing, and fails where the page is not the one that it would write."""

import os
import re
import sys
import textwrap

import calling

HEAD = """# Definitions

What each file of definitions holds. The words of a contract's clauses are defined in
`crates/NAME/specs/`, and the first comment of each file there says whether it is *meaning* or
*bridge*. `tools/definitions.py` writes this page from these comments.

- **Meaning** must be read by whoever wants to know what is promised. Most of it computes: worked
  rows in `proofs/Examples.antt` are proved by computing.
- **Bridge** ties the code to the meaning: what a value of the code shows, what a loop keeps, the
  same thing said line by line. It is proved to agree with the meaning, and may be skipped.

`tools/believed.py` lists the definitions that are meaning and that the contracts of public calls
reach, with their lines and the sum. YAML is [YAML 1.2.2](https://yaml.org/spec/1.2.2/), by chapter;
the rules and their options are those of yamllint's documentation, by rule.

A value of the code and what a clause sees of it have one name: a `Lexeme` is seen as a
`LexemeValue`, a `Row` as a `RowValue`, a `Scanner` as a `ScannerValue`.
"""


def head(path):
    """Whether a file is meaning or bridge, and what its first comment says."""
    comment = []
    with open(path, encoding="utf-8") as file:
        for line in file:
            if not line.startswith("--"):
                break
            comment.append(line[2:].strip())
    said = re.fullmatch(r"(Meaning|Bridge): (.+)", " ".join(comment))
    if said is None:
        sys.exit(f"{path}: the first comment says neither Meaning nor Bridge")
    return said.groups()


def heads(crate):
    """The files of a crate's specs/, each with its kind and what it says."""
    folder = os.path.join(calling.REPOSITORY, "crates", crate, "specs")
    files = os.listdir(folder) if os.path.isdir(folder) else []
    for file in sorted(files):
        if file.endswith(".antt") and file != "Lib.antt":
            yield file.removesuffix(".antt"), *head(os.path.join(folder, file))


def section(kind):
    parts = [f"\n## {kind}\n"]
    for crate in calling.crates():
        items = [f"- `{name}`: {says}" for name, of, says in heads(crate) if of == kind]
        if items:
            parts.append(f"\n### {crate}\n\n")
        for item in items:
            parts.append(textwrap.fill(item, 100, subsequent_indent="  ", break_long_words=False,
                                       break_on_hyphens=False) + "\n")
    return "".join(parts)


if __name__ == "__main__":
    calling.put("DEFINITIONS.md", HEAD + section("Meaning") + section("Bridge"))
