#!/usr/bin/env python3
"""Compares `yamllint` as built with yamllint itself on real files.

    tools/yamllint_cases.py PROGRAM [--check] [-d DATA] [-n EVERY] FOLDER..

lints each .yaml and .yml file below the folders by PROGRAM and by the Python package yamllint 1.29
(Debian's; run this by the python3 that has it), both under the configuration DATA, `extends: default`
unless said otherwise. PROGRAM is our `yamllint`, which is run for each file; with --check it is
`zutkrad`, and `zutkrad check` is run for many files at once. With -n it takes each file of that number
alone. It compares the line, the column, the level and the rule of each problem. Rules that PROGRAM does
not check are left out. It prints each file with a difference, what one of the two has alone, and at the
end how many files were equal, different and left out. Those that are left out cannot be read as UTF-8,
or yamllint itself fails on them.
"""
import argparse
import collections
import os
import re
import subprocess
import sys

from yamllint import linter
from yamllint.config import YamlLintConfig

NOT_CHECKED = {"comments-indentation", "document-end", "empty-values", "float-values", "octal-values"}
LINE = re.compile(r"(.*):(\d+):(\d+): \[(error|warning)\] .* \(([a-z-]+)\)", re.DOTALL)
# How many files `zutkrad check` gets in a run.
MANY = 500


def files_below(folders):
    """The YAML files below these folders, in order."""
    for folder in folders:
        for place, _, names in sorted(os.walk(folder)):
            for name in sorted(names):
                path = os.path.join(place, name)
                if name.endswith((".yaml", ".yml")) and os.path.isfile(path):
                    yield path


def told_by_yamllint(text, config):
    """The problems that the Python package finds, counted."""
    return collections.Counter(
        (it.line, it.column, it.level, it.rule or "syntax")
        for it in linter.run(text, config)
        if it.rule not in NOT_CHECKED
    )


def told_by_program(words, paths):
    """The problems that our program finds in these files, counted for each of them."""
    told = {path: collections.Counter() for path in paths}
    if not paths:
        return told
    ran = subprocess.run([*words, *paths], capture_output=True, encoding="utf-8", check=False)
    if ran.returncode == 255:
        sys.exit(ran.stderr)
    for line in ran.stdout.split("\n")[:-1]:
        path, number, column, level, rule = LINE.fullmatch(line).groups()
        told[path][int(number), int(column), level, rule] += 1
    return told


def told_by_both(words, paths, config):
    """Of each of these files what yamllint tells, or None where it is left out, and what our program tells."""
    theirs = {}
    for path in paths:
        try:
            with open(path, newline="", encoding="utf-8") as file:
                theirs[path] = told_by_yamllint(file.read(), config)
        except (UnicodeDecodeError, RecursionError):
            theirs[path] = None
    ours = told_by_program(words, [path for path in paths if theirs[path] is not None])
    return [(path, theirs[path], ours.get(path)) for path in paths]


def compare(path, theirs, ours):
    """Whether both tell the same of a file, or None where it is left out. It prints what is told by one alone."""
    if theirs is None:
        return None
    for who, alone in (("program", ours - theirs), ("yamllint", theirs - ours)):
        for line, column, level, rule in sorted(alone):
            print(f"{path}:{line}:{column}: [{level}] ({rule}) by {who} alone", flush=True)
    return ours == theirs


def main():
    words = argparse.ArgumentParser()
    words.add_argument("program")
    words.add_argument("folders", nargs="+")
    words.add_argument("--check", action="store_true")
    words.add_argument("-d", dest="data", default="extends: default")
    words.add_argument("-n", dest="every", type=int, default=1)
    asked = words.parse_args()
    config = YamlLintConfig(asked.data)
    command = [asked.program, *(["check"] if asked.check else []), "-d", asked.data, "-f", "parsable"]
    paths, count = list(files_below(asked.folders))[:: asked.every], MANY if asked.check else 1
    told = collections.Counter(compare(*both) for at in range(0, len(paths), count)
                               for both in told_by_both(command, paths[at:at + count], config))
    print(f"{told[True]} files equal, {told[False]} different, {told[None]} left out")
    return 1 if told[False] else 0


if __name__ == "__main__":
    sys.exit(main())
