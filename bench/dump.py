#!/usr/bin/env python3
"""dump.py PROGRAM [MIB]: times `yldump --events` beside libyaml.

PROGRAM is the path of `yldump`. Inputs of MIB MiB (10 unless said otherwise) of five forms are made in a folder that goes away again. For each
form `yldump` and a C program over libyaml (`events.c`, which is built by gcc -O2; Debian's package is libyaml-dev) print the events of the
same file to /dev/null, in turns, and the least of five times counts, the processor's time of program and system. A ratio below 1 says that
`yldump` took less time."""

import os
import subprocess
import sys
import tempfile

MIB = 1024 * 1024
HERE = os.path.dirname(os.path.abspath(__file__))
# A form: a piece of text that is repeated, with the number of the repetition.
FORMS = {
    "flat": "name_{n}: value of the key {n}\n",
    "nested": "- item_{n}:\n    - first:\n        second: {{}}\n        third:\n          - a: 1\n            b: 'two'\n      fourth: \"x\"\n",
    "flow": "- [a, {n}, {{key: value, other: [1, 2, \"three\"]}}, 'four', [[], {{}}]]\n",
    "comments": "# A comment that says something of what follows, number {n}\nkey_{n}: value # and one behind it\n\n",
    "documents": "---\nkind: Service\nname: number-{n}\nports: [80, 443]\n...\n",
}


def write_text(path, size, form):
    written = n = 0
    with open(path, "w") as file:
        while written < size:
            piece = "".join(FORMS[form].format(n=n + i) for i in range(1000))
            written += file.write(piece)
            n += 1000


def run(command):
    """Seconds of processor time and peak memory in bytes of one run."""
    with open(os.devnull, "wb") as nothing:
        process = subprocess.Popen(command, stdout=nothing)
        _, status, usage = os.wait4(process.pid, 0)
    process.returncode = os.waitstatus_to_exitcode(status)
    if process.returncode != 0:
        sys.exit(f"{command[0]} ended with {process.returncode}")
    return usage.ru_utime + usage.ru_stime, usage.ru_maxrss * 1024


def build(folder):
    program = os.path.join(folder, "events")
    subprocess.run(["gcc", "-O2", "-o", program, os.path.join(HERE, "events.c"), "-lyaml"], check=True)
    return program


def main():
    program = os.path.abspath(sys.argv[1])
    size = int(sys.argv[2]) if len(sys.argv) > 2 else 10
    print("MiB form           s  libyaml s   ratio  peak MiB  libyaml MiB")
    with tempfile.TemporaryDirectory() as folder:
        libyaml = build(folder)
        path = os.path.join(folder, "input.yaml")
        for form in FORMS:
            write_text(path, size * MIB, form)
            ours, theirs = [], []
            for _ in range(5):
                theirs.append(run([libyaml, path]))
                ours.append(run([program, "--events", path]))
            seconds, peak = min(s for s, _ in ours), max(m for _, m in ours)
            their_seconds, their_peak = min(s for s, _ in theirs), max(m for _, m in theirs)
            print(
                f"{size:3} {form:9} {seconds:6.3f}  {their_seconds:9.3f}  {seconds / their_seconds:6.2f}"
                f"  {peak / MIB:8.1f}  {their_peak / MIB:11.1f}"
            )


if __name__ == "__main__":
    main()
