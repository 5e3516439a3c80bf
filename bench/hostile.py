#!/usr/bin/env python3
"""hostile.py PROGRAM [MIB]: what memory and time `yamllint` takes for texts that are made to take much.

PROGRAM is the path of our `yamllint`. Texts of at most MIB MiB (8 unless said otherwise, and 64 at most) are made in a folder that goes
away again: one thing over and over in one line; a row over and over, of which `# ` with its blank and `a: 1` with the key of the row
before have a problem each; 1,000,000 keys of one mapping; 100,000 anchors, which are all set before each is used once; and rows that are
each one blank deeper than the row before, as many as fit, and at most 100,000. The numbers of keys and anchors are those for 8 MiB, and
go with MIB. Some 4,000 indents fit in 8 MiB.

Our program prints its report to /dev/null. It may take 120 seconds and addresses of 8 GiB. A C program over libyaml (`parse.c`, built by
gcc -O2; Debian's package is libyaml-dev) reads the events of the same file and drops them, and may take 20 seconds. Each runs once. Seconds
are those of the processor's time of program and system. The row says which program came to a limit, and where libyaml stopped at a
fault: its figures are those of the run until then. Memory is the peak of the process, and at least this script's own, some 10 MiB, since
a process begins as a copy of it."""

import functools
import itertools
import os
import resource
import signal
import sys
import tempfile

from running import MIB, built_parser, limiting, run

USUAL_MIB = 8
MOST_SECONDS, MOST_MEMORY = 120, 8 * 1024 * MIB
PEER_SECONDS = 20
# The statuses of a linter that read its text.
FOUND = (0, 1, 2)
KEYS, ANCHORS, MOST_INDENTS = 1_000_000, 100_000, 100_000
# How many pieces are written at once.
PIECES = 1000


def rows(row, size):
    """As many rows as fit in the size."""
    count = size // len(row)
    for done in range(0, count, PIECES):
        yield row * min(PIECES, count - done)


def one_line(piece, size):
    """As many pieces as fit in one line."""
    return itertools.chain(rows(piece, size - 1), ["\n"])


def scaled(count, size):
    return int(count * size / (USUAL_MIB * MIB))


def ascending(size):
    """A key has six digits, so that the order of its bytes is that of the numbers."""
    return (f"{n:06x}:\n" for n in range(scaled(KEYS, size)))


def descending(size):
    return (f"{n:06x}:\n" for n in reversed(range(scaled(KEYS, size))))


def anchors(size):
    count = scaled(ANCHORS, size)
    return itertools.chain((f"- &a{n} b\n" for n in range(count)), (f"- *a{n}\n" for n in range(count)))


def indents(row, size):
    written = 0
    for depth in range(MOST_INDENTS):
        written += depth + len(row)
        if written > size:
            return
        yield " " * depth + row


# What makes the pieces of each text, for a size in bytes.
TEXTS = {
    "[ in one line": functools.partial(one_line, "["),
    "{ in one line": functools.partial(one_line, "{"),
    "[a, in one line": functools.partial(one_line, "[a, "),
    "- in one line": functools.partial(one_line, "- "),
    ": in one line": functools.partial(one_line, ": "),
    "letters in one line": functools.partial(one_line, "a"),
    "lines of #": functools.partial(rows, "#\n"),
    "lines of # and a blank": functools.partial(rows, "# \n"),
    "blank lines": functools.partial(rows, "\n"),
    "lines of a: 1": functools.partial(rows, "a: 1\n"),
    "descending keys": descending,
    "ascending keys": ascending,
    "anchors": anchors,
    "nested mappings": functools.partial(indents, "a:\n"),
    "nested sequences": functools.partial(indents, "-\n"),
}


def write_text(path, size, name):
    with open(path, "w") as file:
        file.writelines(TEXTS[name](size))


def ending(took, said, seconds):
    """How a run ended that did not read its text to the end."""
    if took.status == -signal.SIGXCPU:
        return f"stopped after {seconds} s"
    if "memory" in said:
        return f"out of memory, with a limit of {MOST_MEMORY // MIB:,} MiB"
    return f"ended with {took.status} {said.strip()}".rstrip()


def run_ours(program, path):
    """What our program took, and how it ended where it did not read its text."""
    with tempfile.TemporaryFile() as errors:
        took = run([program, path], limiting(MOST_SECONDS, MOST_MEMORY), errors)
        errors.seek(0)
        said = errors.read().decode(errors="replace")
    return took, "" if took.status in FOUND else "yamllint " + ending(took, said, MOST_SECONDS)


def run_peer(libyaml, path):
    """The same of libyaml's parser."""
    took = run([libyaml, path], limiting(PEER_SECONDS, resource.RLIM_INFINITY))
    if took.status == 0:
        return took, ""
    return took, "libyaml " + ("stopped at a fault" if took.status == 1 else ending(took, "", PEER_SECONDS))


def show(program, libyaml, path, name):
    length = os.path.getsize(path)
    ours, our_end = run_ours(program, path)
    theirs, their_end = run_peer(libyaml, path)
    notes = "; ".join(end for end in (our_end, their_end) if end)
    row = (
        f"{name:22} {length:10,} {ours.seconds:8.3f} {ours.peak / MIB:9.1f} {ours.peak / length:11.1f}"
        f" {theirs.seconds:10.3f} {theirs.peak / MIB:12.1f} {theirs.peak / length:11.1f}  {notes}"
    )
    print(row.rstrip(), flush=True)


def main():
    program = os.path.abspath(sys.argv[1])
    size = int(float(sys.argv[2] if len(sys.argv) > 2 else USUAL_MIB) * MIB)
    print("input                       bytes        s  peak MiB  times text  libyaml s  libyaml MiB  times text")
    with tempfile.TemporaryDirectory() as folder:
        libyaml = built_parser(folder)
        path = os.path.join(folder, "input.yaml")
        for name in TEXTS:
            write_text(path, size, name)
            show(program, libyaml, path, name)


if __name__ == "__main__":
    main()
