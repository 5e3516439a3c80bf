#!/usr/bin/env python3
"""Times of `split` and of edits of one line over the two stores of a text, and how full chunks stay.

    python3 bench/stores.py

It makes a repository in a folder that goes away again, of the crates yl_text and yl_chunks and of the program in
bench/stores, has `rt run` prove and build it, and runs it twice. `split` is timed on texts of 4 to 64 MiB, and the best of both
runs counts; the other figures are those of the first. Of texts of 10^3 to 10^6 lines it types lines before the first line, in
the middle and before the last one, takes them out again, and replaces a line as often; the better of two rounds counts. A line
of the table has the mean nanoseconds of an edit that puts in or takes out a line, and of one that replaces a line, each over
`ChunkStore`, over `PlainStore`, and as their ratio. `check` and the split of what comes in are in each.
"""
import tempfile

from building import built, run

NAME = "yl_store_bench"
LIBRARIES = ["thiserror", "yl_text", "yl_chunks"]
ROUNDS = 2


def splits(lines):
    """The nanoseconds of each split, with how many bytes and rows it had."""
    found = [line.split() for line in lines if line.startswith("split ")]
    return {kind: (int(size), int(rows), int(spent)) for _, kind, size, rows, spent in found}


def show_splits(runs):
    """Prints the best time of each split."""
    for kind, (size, rows, _) in splits(runs[0]).items():
        spent = min(splits(lines)[kind][2] for lines in runs)
        print(f"split of {size / 2**20:.1f} MiB, {kind} lines: {rows} rows, {spent / 1e6:.0f} ms, {size / spent * 1000:.0f} MB/s")


def show(lines):
    """Prints the table, and what it says of texts that grow."""
    found = {}
    for line in lines:
        word, *numbers = line.split()
        if word in ("chunks", "plain"):
            size, place, moved, replaced = map(int, numbers)
            kind = "start" if place == 0 else "middle" if place <= size // 2 else "end"
            found[word, size, kind] = (moved, replaced)
        elif word == "fewest":
            size, edits, before, after, rows, spent = map(int, numbers)
            print(f"{edits} random edits of {size} lines: {spent} ns an edit; then {rows} lines, the smallest chunk has {after} (before: {before})")
        elif word == "typed":
            size, spent, fewest, rows = map(int, numbers)
            print(f"{rows} lines typed one after another: {spent} ns a line, the smallest chunk has {fewest}")
    print("lines    place   put in: chunks    plain  ratio   replaced: chunks    plain  ratio")
    for word, size, kind in found:
        if word != "chunks":
            continue
        (a, b), (c, d) = found["chunks", size, kind], found["plain", size, kind]
        print(f"{size:7}  {kind:6} {a:16} {c:8} {a / c:6.3f} {b:18} {d:8} {b / d:6.3f}")
    (a, b), (c, d) = found["chunks", 1_000_000, "middle"], found["chunks", 10_000, "middle"]
    print(f"in the middle, 10^6 lines to 10^4: put in {a / c:.2f}, replaced {b / d:.2f}")


def main():
    with tempfile.TemporaryDirectory() as folder:
        program = built(folder, "stores", NAME, LIBRARIES)
        runs = [run([program])[0] for _ in range(ROUNDS)]
    show_splits(runs)
    show(runs[0])


if __name__ == "__main__":
    main()
