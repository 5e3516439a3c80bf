#!/usr/bin/env python3
"""edit.py YLEDIT [MIB] [--seconds SECONDS] [--documents N..] [--problems N..] [--more NAME..]: times of edits of a text that stays open.

YLEDIT is a built program, crates/yledit/out/yledit. Texts have MIB MiB (10 unless said otherwise): of 1,000 documents, of
100,000 documents, and one document, each with no problem, or with so many, whose messages vary: warnings, which are not
printed. With --more a fault stands in the text's last document (fault), or a comment that silences the rule key-duplicates and
one that takes it back in its first document and its last (comments). For each text, at its start, in its middle and at its
end, each in a fresh process, the same edits are made again and again until SECONDS (5) have passed, at least once:

    nothing  no bytes are put from a place to itself
    typing   a value is typed, letter by letter (a line replaced)
    blank    a blank is typed behind a value, and a letter behind that
    long     letters are typed past column 80
    line     a line is put in, and taken out
    quote    a double quote is opened before a value, a letter is typed under it, it is closed, and both are taken away
    far      while such a quote is open, a letter is typed a quarter of the text below it, the first one there
    next     one more letter is typed there
    closed   the quote is closed then
    bracket  the same with a bracket
    comment  a line `# yamllint disable` is put in, and taken out
    marker   a line `---` is put in, and taken out
    width    the text's first indented line gets another width, and its own again

Each edit is timed by itself, from when its command is written to when its answer was read, as an editor would wait for it. What
that takes of an edit of nothing goes to the pipes and to this script. A line of the table has the median and the 99th percentile
of the edits of one kind, in microseconds, how often the time of opening goes into either (from the start of the first process
to its first answer), and the most rows that one edit scanned. Beside them stand that time, and the peak memory of a process that
only opens the text and of the one that edits it."""
import argparse
import os
import statistics
import subprocess
import sys
import tempfile
import time

MIB = 1024 * 1024
# A block of a text, which is a key of a document, and which of its lines is edited. The other has a problem.
BLOCK = "item-{n}:\n  name: web\n  image: registry/web\n  ports:\n    - 80\n"
PROBLEM = "item-{n}:\n  name: web\n  image: registry/web\n  k{n}: 1\n  k{n}: 2\n"
NAME_LINE, IMAGE_LINE = 1, 2
BLOCK_LINES = BLOCK.count("\n")
DOCUMENTS = [1000, 100_000, 1]
PLACES = {"start": 0.0, "middle": 0.5, "end": 1.0}
KINDS = ["nothing", "typing", "blank", "long", "line", "quote", "far", "next", "closed", "bracket", "comment", "marker", "width"]
# What stands before a document's first block, or behind the text.
SILENCED, HEARD, FAULT = "# yamllint disable rule:key-duplicates\n", "# yamllint enable rule:key-duplicates\n", 'end: "open\n'
CONFIG = "{extends: default, rules: {key-duplicates: {level: warning}}}"


def write_text(path, size, documents, problems, more):
    """Writes a text of so many documents, and answers the line of each block's edited line, counted from 0."""
    blocks = max(int((size - 4 * documents) / len(BLOCK.format(n=100_000))), documents)
    places, line = [], 0
    with open(path, "w") as file:
        for document in range(documents):
            file.write("---\n")
            line += 1
            if more == "comments" and document in (0, documents - 1):
                file.write(HEARD if document else SILENCED)
                line += 1
            for n in range(blocks * document // documents, blocks * (document + 1) // documents):
                file.write((PROBLEM if n * problems % blocks < problems else BLOCK).format(n=n))
                places.append(line + NAME_LINE)
                line += BLOCK_LINES
        if more == "fault":
            file.write(FAULT)
    return places


def replaced(kind, line, texts, first):
    """Edits that put these texts one after another in place of a line, and the first one again."""
    return [(kind, line, line + 1, text + "\n") for text in [*texts, first]]


def put_in(kind, line, text):
    """The edit that puts a line before this one, and the one that takes it out."""
    return [(kind, line, line, text + "\n"), (kind, line, line + 1, "")]


def opened_and_closed(kind, line, sign, closing):
    """A sign is opened before a value, typed under and closed; then the line and the one below it are as they were."""
    name, image = "  name: web", "  image: registry/web"
    below = line + IMAGE_LINE - NAME_LINE
    return (
        replaced(kind, line, [f"  name: {sign}web"], f"  name: {sign}web")[:1]
        + replaced(kind, below, [image + "s"], image)
        + replaced(kind, line, [f"  name: {sign}web{closing}"], name)
    )


def far_below(line, far):
    """A quote is opened before a value, letters are typed in a line far below it, and it is closed; then both lines are as they were."""
    name = "  name: web"
    if far <= line:
        return []
    return (
        replaced("quote", line, ['  name: "web'], name)[:1]
        + [("far", far, far + 1, name + "s\n"), ("next", far, far + 1, name + "st\n")]
        + [("closed", line, line + 1, '  name: "web"\n')]
        + replaced("typing", far, [], name)
        + replaced("quote", line, [], name)
    )


def edits(line, far, first_indented):
    """The edits of the value in a line, and of one in a line far below, behind which the text is as it was."""
    name, image = "  name: web", "  image: registry/web"
    below = line + IMAGE_LINE - NAME_LINE
    long = image + "w" * (81 - len(image))
    return (
        [("nothing", line, line, "")]
        + replaced("typing", line, ["  name: w", "  name: we", "  name: web1", "  name: web12"], name)
        + replaced("blank", line, [name + " ", name + " 1"], name)
        + replaced("long", below, [long, long + "w", long + "ww"], image)
        + put_in("line", line, "  tier: front")
        + opened_and_closed("quote", line, '"', '"')
        + far_below(line, far)
        + opened_and_closed("bracket", line, "[", "]")
        + put_in("comment", line, "  # yamllint disable")
        + put_in("marker", line - NAME_LINE, "---")
        + replaced("width", first_indented, ["    name: web"], name)
    )


def listed(places, place):
    """The edits of up to 50 blocks next to a place of the text, a list for each block: what kind each is, and its command."""
    count = min(50, len(places))
    first = int((len(places) - count) * place)
    below = places[min(first + len(places) // 4, len(places) - 1)]
    return [
        [(kind, f"replace {a} 0 {b} 0 {len(text)}\n{text}".encode()) for kind, a, b, text in edits(line, below, places[0])]
        for line in places[first : first + count]
    ]


class Opened:
    """A process of `yledit` over a text."""

    def __init__(self, program, text):
        start = time.perf_counter_ns()
        command = [program, "-d", CONFIG, "--no-warnings", "--work", text]
        self.process = subprocess.Popen(command, stdin=subprocess.PIPE, stdout=subprocess.PIPE, bufsize=0)
        self.answer()
        self.spent = time.perf_counter_ns() - start

    def answer(self):
        """The last line of the next answer."""
        said, output = b"", self.process.stdout.fileno()
        while True:
            said += os.read(output, 65_536)
            last = said[said.rfind(b"\n", 0, -1) + 1 :]
            if said.endswith(b"\n") and last.startswith(b"-- "):
                return last
            if self.process.poll() is not None:
                sys.exit(f"it ended, after {said!r}")

    def edit(self, command):
        """The nanoseconds that an edit takes, and how many rows it scans."""
        start = time.perf_counter_ns()
        os.write(self.process.stdin.fileno(), command)
        last = self.answer()
        spent = time.perf_counter_ns() - start
        if not last.startswith(b"-- ok "):
            sys.exit(f"{command!r} was answered {last!r}")
        return spent, int(last.split()[3])

    def close(self):
        """The most memory that it had, in bytes."""
        self.process.stdin.close()
        _, status, usage = os.wait4(self.process.pid, 0)
        self.process.returncode = os.waitstatus_to_exitcode(status)
        return usage.ru_maxrss * 1024


def timed(program, text, blocks, seconds):
    """Of each kind of edit what each took and how many rows it scanned, and the peak memory."""
    opened, kinds = Opened(program, text), {}
    end = time.perf_counter() + seconds
    while True:
        for block in blocks:
            for kind, command in block:
                kinds.setdefault(kind, []).append(opened.edit(command))
            if time.perf_counter() >= end:
                return kinds, opened.close()


def show_text(words, folder, documents, problems, more):
    text = os.path.join(folder, "text.yaml")
    places = write_text(text, int(words.mib * MIB), documents, problems, more)
    first = Opened(words.program, text)
    spent, peak = first.spent, first.close()
    print(f"\n{documents} documents, {problems} problems, {more}, {os.path.getsize(text) / MIB:.1f} MiB: "
          f"open {spent / 1e9:.3f} s, peak {peak / MIB:.0f} MiB")
    print("place   kind      edits  median us   99 % us  open/median  open/99 %  most rows")
    for place, share in PLACES.items():
        kinds, peak = timed(words.program, text, listed(places, share), words.seconds)
        for kind in (kind for kind in KINDS if kind in kinds):
            times = sorted(took for took, _ in kinds[kind])
            median, most = statistics.median(times), times[min(len(times) - 1, int(len(times) * 0.99))]
            rows = max(rows for _, rows in kinds[kind])
            print(f"{place:7} {kind:8} {len(times):6} {median / 1e3:10.1f} {most / 1e3:9.1f} {spent / median:12.1f} {spent / most:10.1f} {rows:10}")
        print(f"{place:7} peak {peak / MIB:.0f} MiB", flush=True)


def main():
    words = argparse.ArgumentParser()
    words.add_argument("program")
    words.add_argument("mib", nargs="?", type=float, default=10)
    words.add_argument("--seconds", type=float, default=5)
    words.add_argument("--documents", type=int, nargs="*", default=DOCUMENTS)
    words.add_argument("--problems", type=int, nargs="*", default=[0, 20_000])
    words.add_argument("--more", nargs="*", choices=["nothing", "fault", "comments"], default=["nothing"])
    words = words.parse_args()
    with tempfile.TemporaryDirectory() as folder:
        for documents in words.documents:
            for problems in words.problems:
                for more in words.more:
                    show_text(words, folder, documents, problems, more)


if __name__ == "__main__":
    main()
