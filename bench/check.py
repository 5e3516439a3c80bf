#!/usr/bin/env python3
"""check.py [--files FOLDER..] [--count COUNT] [--runs RUNS] [--peer YAMLLINT] [--yamllint YAMLLINT] [ZUTKRAD]: how long `zutkrad check`
takes for many files.

ZUTKRAD is crates/zutkrad/out/zutkrad of this checkout unless another is given, and `yamllint` beside it is crates/yamllint/out/yamllint.
The peer is Debian's yamllint (/usr/bin/yamllint). Who of the last two is not there is left out, and that is said. Three things are timed,
by the clock and by the processor's time of program and system:

    files   the first COUNT (4,000) YAML files below the FOLDERs (/usr) that are UTF-8, copied into a folder of their own: `zutkrad check`
            walks that folder, `yamllint` gets the same files named, the peer walks the folder too. What the first two print is compared.
    others  100,000 files in 1,000 folders of three levels, none of them YAML: `zutkrad check`, the peer, and `find` for names of YAML files
    first   from the start of the process to its first byte on standard output, where the first file has a problem: alone, and before the
            files above. The peer runs without a buffer (PYTHONUNBUFFERED), as it does on a terminal.

The programs run in turns, after a run that is not counted, so all is in the system's cache. A row of the table has the median of RUNS (7)
runs, of the peer over the files of one, the least time, and the peak memory of the process, which is at least this script's own."""

import argparse
import os
import shutil
import statistics
import subprocess
import sys
import tempfile
import time

HERE = os.path.dirname(os.path.abspath(__file__))
CRATES = os.path.join(os.path.dirname(HERE), "crates")
MIB = 1024 * 1024
LEAST_SIZE, MOST_SIZE = 1, 64 * MIB
WIDTH = 10
FILES_IN_FOLDER = 100
OTHER_NAMES = ["a{}.txt", "b{}.json", "c{}.yaml.txt", "d{}", "e{}.py"]
FIND = ["find", ".", "(", "-name", "*.yaml", "-o", "-name", "*.yml", "-o", "-name", ".yamllint", ")"]
WIDTHS = [34, 22, 5, 10, 10, 10, 11]
# What a linter's status may be: no problem, errors, warnings.
STATUSES = (0, 1, 2)


def is_text(path):
    """Whether a file is one that all programs lint."""
    if not os.path.isfile(path) or not LEAST_SIZE <= os.path.getsize(path) <= MOST_SIZE:
        return False
    try:
        with open(path, encoding="utf-8") as file:
            file.read()
    except (OSError, UnicodeDecodeError):
        return False
    return True


def found(folders, count):
    """The first YAML files below these folders."""
    paths = []
    for top in folders:
        for folder, inside, names in os.walk(top):
            inside.sort()
            for name in sorted(names):
                path = os.path.join(folder, name)
                if len(paths) < count and name.endswith((".yaml", ".yml")) and is_text(path):
                    paths.append(path)
    return paths


def copy_files(folder, folders, count):
    """Copies them, and answers their paths below the folder."""
    copies = []
    for path in found(folders, count):
        copy = os.path.abspath(path).lstrip("/")
        os.makedirs(os.path.join(folder, os.path.dirname(copy)), exist_ok=True)
        shutil.copyfile(path, os.path.join(folder, copy))
        copies.append(copy)
    return copies


def make_others(folder):
    """Makes the files that are no YAML, and answers how many."""
    count = 0
    for number in range(WIDTH ** 3):
        place = os.path.join(folder, *(f"folder{digit}" for digit in f"{number:03}"))
        os.makedirs(place)
        for name in range(FILES_IN_FOLDER):
            with open(os.path.join(place, OTHER_NAMES[name % len(OTHER_NAMES)].format(name)), "w"):
                count += 1
    return count


class Times:
    """What the runs of one program took."""

    def __init__(self):
        self.clock, self.processor, self.peak = [], [], 0

    def run(self, command, folder, output=subprocess.DEVNULL, statuses=STATUSES):
        start = time.perf_counter()
        process = subprocess.Popen(command, cwd=folder, stdin=subprocess.DEVNULL, stdout=output)
        _, status, usage = os.wait4(process.pid, 0)
        self.clock.append(time.perf_counter() - start)
        self.processor.append(usage.ru_utime + usage.ru_stime)
        self.peak = max(self.peak, usage.ru_maxrss * 1024)
        process.returncode = os.waitstatus_to_exitcode(status)
        if process.returncode not in statuses:
            sys.exit(f"{command[0]} ended with {process.returncode}")

    def run_first(self, command, folder):
        """Takes the time to the first byte alone."""
        start = time.perf_counter()
        with subprocess.Popen(command, cwd=folder, stdin=subprocess.DEVNULL, stdout=subprocess.PIPE, bufsize=0,
                              env={**os.environ, "PYTHONUNBUFFERED": "1"}) as process:
            piece = os.read(process.stdout.fileno(), 1)
            self.clock.append(time.perf_counter() - start)
            # Nothing else of it is asked for.
            process.kill()
        if not piece:
            sys.exit(f"{command[0]} printed nothing")


def cells(*parts):
    print("| " + " | ".join(f"{part:{width}}" for part, width in zip(parts, WIDTHS)) + " |", flush=True)


def rows(what, times):
    for who, it in times.items():
        processor = f"{statistics.median(it.processor):.3f}" if it.processor else ""
        peak = f"{it.peak / MIB:.0f} MiB" if it.peak else ""
        cells(what, who, str(len(it.clock)), f"{statistics.median(it.clock):.3f}", f"{min(it.clock):.3f}", processor, peak)


def timed(commands, folder, runs, once=()):
    """What these take in turns; those that are named once take one turn."""
    times = {who: Times() for who in commands}
    for turn in range(runs + 1):
        for who, command in commands.items():
            if who in once and turn != 1:
                continue
            it = Times() if turn == 0 else times[who]
            it.run(command, folder)
    return times


def timed_first(commands, folder, runs):
    times = {who: Times() for who in commands}
    for turn in range(runs + 1):
        for who, command in commands.items():
            (Times() if turn == 0 else times[who]).run_first(command, folder)
    return times


def printed(command, folder):
    """The lines that a program prints, in their order by name, without a leading `./`."""
    with tempfile.TemporaryFile() as output:
        Times().run(command, folder, output)
        output.seek(0)
        return sorted(line.removeprefix(b"./") for line in output)


def compare(commands, folder):
    ours = printed(commands["zutkrad check"], folder)
    if "yamllint" in commands and ours != printed(commands["yamllint"], folder):
        sys.exit("zutkrad check prints other lines than yamllint")
    return len(ours)


def main():
    words = argparse.ArgumentParser(usage=__doc__.split(":")[0])
    words.add_argument("--files", nargs="+", default=["/usr"])
    words.add_argument("--count", type=int, default=4000)
    words.add_argument("--runs", type=int, default=7)
    words.add_argument("--peer", default="/usr/bin/yamllint")
    words.add_argument("--yamllint", default=os.path.join(CRATES, "yamllint", "out", "yamllint"))
    words.add_argument("zutkrad", nargs="?", default=os.path.join(CRATES, "zutkrad", "out", "zutkrad"))
    words = words.parse_args()
    lint = ["-d", "extends: default", "-f", "parsable"]
    check = [os.path.abspath(words.zutkrad), "check", *lint, "."]
    has_yamllint, has_peer = (shutil.which(path) is not None for path in (words.yamllint, words.peer))
    for path, is_there in ((words.yamllint, has_yamllint), (words.peer, has_peer)):
        if not is_there:
            print(f"{path} is not there, so it is left out")
    peer = {"Debian's yamllint": [words.peer, *lint, "."]} if has_peer else {}
    with tempfile.TemporaryDirectory() as base:
        files, others, alone = (os.path.join(base, name) for name in ("files", "others", "alone"))
        named = copy_files(files, words.files, words.count)
        sizes = sum(os.path.getsize(os.path.join(files, path)) for path in named)
        os.mkdir(alone)
        with open(os.path.join(alone, "f.yaml"), "w") as file:
            file.write("a: 1\n")
        # It comes before the folders of the copies.
        shutil.copy(os.path.join(alone, "f.yaml"), files)
        commands = {"zutkrad check": check}
        if has_yamllint:
            commands["yamllint"] = [os.path.abspath(words.yamllint), *lint, "f.yaml", *named]
        print(f"{len(named) + 1:,} files of {sizes:,} bytes, {compare(commands, files):,} problems; {make_others(others):,} other files")
        cells("What", "Program", "Runs", "Median, s", "Least, s", "Processor", "Peak memory")
        print("|---" * len(WIDTHS) + "|")
        rows(f"{len(named) + 1:,} files", timed({**commands, **peer}, files, words.runs, set(peer)))
        rows("no file is YAML", timed({"zutkrad check": check, **peer, "find": FIND}, others, words.runs))
        rows("first line, one file", timed_first({"zutkrad check": check, **peer}, alone, words.runs))
        rows("first line, all files", timed_first({"zutkrad check": check, **peer}, files, words.runs))


if __name__ == "__main__":
    main()
