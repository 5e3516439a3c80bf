#!/usr/bin/env python3
"""lint.py PROGRAM [MIB] [PYTHON_YAMLLINT]: times `yamllint` beside libyaml's parser and yamllint itself.

PROGRAM is the path of our `yamllint`. Inputs of MIB MiB (10 unless said otherwise) are made in a folder that goes away again. The
first is of many documents, those with a fault too, and each other one is one document:

    kubernetes   many small documents as Kubernetes has them
    ci           CI files
    flow         flow collections as JSON has them
    comments     a comment above each key and one after it
    blocks       block scalars of short lines
    block        block scalars of long lines, none of them too long
    plain        plain scalars over lines
    nested       nested mappings
    flat         one mapping of distinct keys, with values of some words
    utf8         text outside ASCII in keys, values and comments, of characters of two to four bytes
    short        short lines
    eleven       lines of 11 bytes
    blank        blank rows
    remarks      rows of a short comment alone
    letters      rows of one letter
    returns      short lines, each ended by CR LF
    scan-fault   that of kubernetes, after a row with a character that begins no token
    parse-fault  that of kubernetes, after a row with a bracket that closes nothing

A last one, of short lines too, is 6.4 times as large, so of 64 MiB unless said otherwise, which is as much as a text may have. For
each, our program prints its report to /dev/null, and a C program over libyaml (`parse.c`, built by gcc -O2; Debian's package is
libyaml-dev) reads all events of the same file and drops them. At a fault libyaml stops, and ours goes on with the rules on lines: so
libyaml's time is that of the same text without the fault there, and the row says so. They run in turns, each in a fresh process, and
the least of five times counts, the processor's time of program and system. Where PYTHON_YAMLLINT is given (the path of Debian's
`yamllint`), it runs once over the first 200 kB. Memory is the peak of the process, and at least this script's own, some 15 MiB, since
a process begins as a copy of it. At the end it tells the least time by the clock, of 50 runs, that our program takes for a file of 20
lines."""

import os
import shutil
import sys
import tempfile
import time

from running import MIB, built_parser, run

PART = 200_000
# The statuses of a linter, and that of libyaml's program where it stops.
FOUND = (0, 1, 2)
STOPPED = (1,)
# A form: what begins the text, and a piece that is repeated, with the number of the repetition.
FORMS = {
    "kubernetes": ("", "---\napiVersion: v1\nkind: Service\nmetadata:\n  name: web-{n}\n  labels:\n    app: web\n    tier: front\nspec:\n"
                       "  selector:\n    app: web\n  ports:\n    - name: http\n      port: 80\n      targetPort: {n}\n    - name: https\n      port: 443\n"),
    "ci": ("---\njobs:\n", "  build-{n}:\n    runs-on: ubuntu-latest\n    needs: [lint, test]\n    env:\n      CI: \"true\"\n    steps:\n"
                           "      - uses: actions/checkout@v4\n      - name: Build number {n}\n        run: make all\n"),
    "flow": ("---\n", "- {{\"id\": {n}, \"tags\": [\"a\", \"b\"], \"nested\": {{\"x\": [1, 2, 3], \"y\": null}}}}\n"),
    "comments": ("---\n", "# A comment that says something of what follows, number {n}\nkey_{n}: value  # and one after it\n"),
    "blocks": ("---\n", "script_{n}: |\n  set -e\n  for i in 1 2 3; do\n    echo \"$i\"\n  done\n  exit 0\n"),
    "block": ("---\n", "text_{n}: |\n" + 6 * "  In a block scalar each line is text: it has no lexemes, and it may be long.\n"),
    "plain": ("---\n", "text_{n}: these are words that go on\n  in the next line and in\n  one more\n"),
    "nested": ("---\n", "item_{n}:\n  first:\n    second:\n      third:\n        fourth: {n}\n        fifth: x\n      sixth: y\n"),
    "flat": ("---\n", "name_{n}: value of the key {n}\n"),
    "utf8": ("---\n", "# Några ord på svenska, nummer {n}\nключ_{n}: значение номер {n}  # λίγα λόγια\n名前_{n}: \"値は {n} です 🙂\"\n"),
    "short": ("---\n", "k{n}: v{n}\n"),
    "eleven": ("---\n", "k{n:06}: v\n"),
    "blank": ("---\n", "\n"),
    "remarks": ("---\n", "# c\n"),
    "letters": ("---\n", "a\n"),
    "returns": ("---\r\n", "k{n}: v{n}\r\n"),
}
# A form with a fault: the first rows, and the form of the text after them.
FAULTS = {
    "scan-fault": ("---\nname: @web\n", "kubernetes"),
    "parse-fault": ("---\nname: ]\n", "kubernetes"),
}
# The form of the large text, how many times as large it is, and the bytes that are left out of it, so that its last pieces fit.
LARGE = ("short", 6.4, 64 * 1024)
# The lines of a small file, and how often it is linted.
SMALL_LINES = 20
SMALL_RUNS = 50


def write_text(path, size, form):
    front, piece = FORMS[form]
    n = 0
    with open(path, "wb") as file:
        written = file.write(front.encode())
        while written < size:
            written += file.write("".join(piece.format(n=n + i) for i in range(1000)).encode())
            n += 1000


def write_texts(folder, size, form):
    """The paths of our text and of libyaml's. They are the same unless the form has a fault, which libyaml's has not."""
    path, sound = (os.path.join(folder, name) for name in ("input.yaml", "sound.yaml"))
    if form not in FAULTS:
        write_text(path, size, form)
        return path, path
    fault, rest = FAULTS[form]
    write_text(sound, size, rest)
    with open(path, "wb") as file, open(sound, "rb") as text:
        file.write(fault.encode())
        shutil.copyfileobj(text, file)
    return path, sound


def timed(command, statuses=(0,)):
    """What one run took, which has to end with one of these statuses."""
    took = run(command)
    if took.status not in statuses:
        sys.exit(f"{command[0]} ended with {took.status}")
    return took


def python_time(folder, path, python):
    """Seconds that yamllint takes for a MiB, by its time over the first part of the file."""
    part = os.path.join(folder, "part.yaml")
    with open(path, "rb") as file:
        text = file.read(PART)
    with open(part, "wb") as file:
        file.write(text[: text.rindex(b"\n") + 1])
    return timed([python, "-f", "parsable", part], FOUND).seconds * MIB / os.path.getsize(part)


def small_time(folder, program):
    """Milliseconds by the clock that our program takes for a small file, the start of the process among them."""
    path = os.path.join(folder, "small.yaml")
    with open(path, "w") as file:
        file.write("---\n" + "".join(f"key_{n}: value {n}\n" for n in range(SMALL_LINES - 1)))
    times = []
    for _ in range(SMALL_RUNS):
        start = time.perf_counter()
        timed([program, path])
        times.append(time.perf_counter() - start)
    return min(times) * 1000


def compare(program, libyaml, path, peer_path):
    """The least seconds of both, of five runs in turns, and the most memory of ours."""
    ours, theirs = [], []
    for _ in range(5):
        ours.append(timed([program, path], FOUND))
        theirs.append(timed([libyaml, peer_path]))
    return min(took.seconds for took in ours), min(took.seconds for took in theirs), max(took.peak for took in ours)


def show(folder, program, libyaml, python, form, mib, less):
    """Prints the row of a form, whose text has so many MiB without a few bytes."""
    path, peer_path = write_texts(folder, mib * MIB - less, form)
    length, note = os.path.getsize(path), ""
    if peer_path != path:
        timed([libyaml, path], STOPPED)
        note = "libyaml stops at the fault: its time is without it"
    mine, peer, memory = compare(program, libyaml, path, peer_path)
    faster = f"{python_time(folder, path, python) * length / MIB / mine:8.0f}" if python else ""
    row = f"{mib:3g} {form:11} {mine:7.3f} {peer:10.3f} {mine / peer:7.2f} {memory / length:12.1f} {faster:20}  {note}"
    print(row.rstrip(), flush=True)


def main():
    program = os.path.abspath(sys.argv[1])
    size = float(sys.argv[2]) if len(sys.argv) > 2 else 10
    python = sys.argv[3] if len(sys.argv) > 3 else None
    print("MiB form              s  libyaml s   ratio  memory/text  yamllint's time/ours")
    with tempfile.TemporaryDirectory() as folder:
        libyaml = built_parser(folder)
        for form, times, less in [(form, 1, 0) for form in [*FORMS, *FAULTS]] + [LARGE]:
            show(folder, program, libyaml, python, form, size * times, less)
        print(f"a file of {SMALL_LINES} lines: {small_time(folder, program):.1f} ms")


if __name__ == "__main__":
    main()
