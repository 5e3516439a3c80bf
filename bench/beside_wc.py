#!/usr/bin/env python3
"""Time and memory of `yamllint` beside `wc -lmL` on the same files.

    python3 bench/beside_wc.py PATH-TO-yamllint [MIB..]

The inputs are made here: of each size (1, 10 and 64 MiB if none is given) one with short lines and one with long
lines, in ASCII and not. Each program runs three times on each file, in turn, and the best time counts. A line of the
table has yamllint's time, its MB/s and peak memory, and both as ratios: time to that of `wc`, memory to the file's size.
"""
import os
import subprocess
import sys
import tempfile
import time

MIB = 1024 * 1024

LINES = {
    "short": "key-%06d: value of it, %s\n",
    "long": "- {name: entry-%06d, note: '%s'}\n",
}

WORDS = {
    "ASCII": "some words",
    "other": "några ord, λίγα λόγια",
}


def write_text(path, size, form, words):
    """Writes at most so many bytes of lines, line by line, so that this program stays small: a run's peak memory counts
    what its parent had when it was started. Short lines have no problem, long ones are too long."""
    filler = words if form == "short" else " ".join([words] * 12)
    with open(path, "wb") as file:
        for number in range(size):
            line = (LINES[form] % (number % 1000000, filler)).encode()
            if file.tell() + len(line) > size:
                break
            file.write(line)


def run(command):
    """Seconds and peak memory in bytes of one run."""
    with open(os.devnull, "wb") as nothing:
        start = time.perf_counter()
        process = subprocess.Popen(command, stdout=nothing)
        _, status, usage = os.wait4(process.pid, 0)
        seconds = time.perf_counter() - start
    process.returncode = os.waitstatus_to_exitcode(status)
    if process.returncode not in (0, 1):
        sys.exit(f"{command[0]} ended with {process.returncode}")
    return seconds, usage.ru_maxrss * 1024


def main():
    program = os.path.abspath(sys.argv[1])
    sizes = [int(word) for word in sys.argv[2:]] or [1, 10, 64]
    os.environ["LC_ALL"] = "C.UTF-8"
    print("MiB lines letters     s    MB/s  peak MiB   time/wc  memory/file")
    with tempfile.TemporaryDirectory() as folder:
        for size in sizes:
            for form in LINES:
                for letters, words in WORDS.items():
                    path = os.path.join(folder, "input.yaml")
                    write_text(path, size * MIB, form, words)
                    length = os.path.getsize(path)
                    ours, theirs = [], []
                    for _ in range(3):
                        theirs.append(run(["wc", "-lmL", path]))
                        ours.append(run([program, path]))
                    seconds, peak = min(s for s, _ in ours), max(m for _, m in ours)
                    ratio = seconds / min(s for s, _ in theirs)
                    print(
                        f"{size:3} {form:5} {letters:7} {seconds:6.3f} {length / 1e6 / seconds:7.0f} {peak / MIB:9.1f}"
                        f" {ratio:9.2f} {peak / length:12.2f}"
                    )


if __name__ == "__main__":
    main()
