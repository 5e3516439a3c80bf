#!/usr/bin/env python3
"""records.py [MIB] [--folder FOLDER]: what memory the records of a text take.

It makes a repository of the crates below yl_record and of the program in bench/records, and has
`rt run` prove and build it. The repository is in a folder that is deleted at the end, or in FOLDER,
where a second call finds it. For each form of text of `dump.py` (flat, nested, full of flow
collections, full of comments, of many documents) the program reads a file of MIB MiB (10 by
default), each time in a fresh process. It makes the records of the file, and prints what memory the
process has before and after (Linux's `/proc/self/smaps_rollup`). The difference is the memory of
the records, with what the allocator keeps beside them.

A table has it in bytes per row, per lexeme, and per byte of the text: with the state of each sound
row, as a session keeps them, and without states, as `yamllint` makes them. `yamllint` doesn't keep
them all: it drops the record of a row once the row is judged. A row whose scalar goes on in the row
below waits until the scalar ends."""
import argparse
import os
import re
import tempfile

from building import built, run
from dump import FORMS, MIB, write_text

NAME = "yl_records_bench"
LIBRARIES = ["thiserror", "yl_text", "yl_lexeme", "yl_record"]


def measured(program, path, states):
    """The bytes of the records of a file, and how many rows and lexemes they are of."""
    lines, _ = run([program, path, states])
    before, after = (int(line.split()[1]) * 1024 for line in lines if re.match("Rss:", line))
    rows, lexemes = (int(line.split()[1]) for line in lines if re.match("(rows|lexemes) ", line))
    return after - before, rows, lexemes


def show(program, folder, size):
    print("MiB form           rows  lexemes a row  with states: bytes a row  a lexeme  of the text  without: bytes a row  of the text")
    path = os.path.join(folder, "input.yaml")
    for form in FORMS:
        write_text(path, int(size * MIB), form)
        bytes_read = os.path.getsize(path)
        with_states, rows, lexemes = measured(program, path, "states")
        without, _, _ = measured(program, path, "none")
        print(
            f"{size:3} {form:9} {rows:9} {lexemes / rows:14.2f} {with_states / rows:25.0f} {with_states / max(lexemes, 1):9.0f}"
            f" {with_states / bytes_read:12.1f} {without / rows:21.0f} {without / bytes_read:12.1f}"
        )


def main():
    words = argparse.ArgumentParser()
    words.add_argument("mib", nargs="?", type=float, default=10)
    words.add_argument("--folder")
    words = words.parse_args()
    with tempfile.TemporaryDirectory() as folder:
        program = built(os.path.abspath(words.folder or folder), "records", NAME, LIBRARIES)
        show(program, folder, words.mib)


if __name__ == "__main__":
    main()
