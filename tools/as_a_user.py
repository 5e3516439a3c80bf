#!/usr/bin/env python3
"""as_a_user.py [YAMLLINT YLEDIT ZUTKRAD]: runs the built programs as a user does, and tells what is not as it should be.

Without words it takes the programs that `rt run` left in crates/NAME/out. Each case below has its
words and what is to come of it: standard output, standard error and the status. Then each request for memory of some longer
runs is refused in turn (tools/refusing.c, built by cc and loaded before the C library), up to the first run that meets no
refusal. It ends with 1 where something is not as it should be."""
import os
import re
import subprocess
import sys
import tempfile
from collections import namedtuple

HERE = os.path.dirname(os.path.abspath(__file__))
PROGRAMS = ("yamllint", "yledit", "zutkrad")
SECONDS = 60
OF_A_USER = ("YAMLLINT_CONFIG_FILE", "XDG_CONFIG_HOME", "GITHUB_ACTIONS", "GITHUB_WORKFLOW")

NO_START = 'f.yaml:1:1: [warning] missing document start "---" (document-start)\n'
COLON_AND_BLANK = (
    "spaced.yaml:2:4: [error] too many spaces after colon (colons)\n"
    "spaced.yaml:2:6: [error] trailing spaces (trailing-spaces)\n"
)
# The same problem in other formats.
STANDARD = 'f.yaml\n  1:1       warning  missing document start "---"  (document-start)\n\n'
COLORED = ("\x1b[4mf.yaml\x1b[0m\n  \x1b[2m1:1\x1b[0m       \x1b[33mwarning\x1b[0m  missing document start \"---\"  "
           "\x1b[2m(document-start)\x1b[0m\n\n")
GITHUB = ("::group::f.yaml\n::warning file=f.yaml,line=1,col=1::1:1 [document-start] missing document start \"---\"\n"
          "::endgroup::\n\n")
# What an editor sends to end the server, and what that is answered where it was not begun.
SHUTDOWN = b'Content-Length: 44\r\n\r\n{"jsonrpc":"2.0","id":1,"method":"shutdown"}'
EXIT = b'Content-Length: 33\r\n\r\n{"jsonrpc":"2.0","method":"exit"}'
NOT_BEGUN = ('Content-Length: 92\r\n\r\n{"error":{"code":-32002,"message":"the server waits for initialize"},"id":1,'
             '"jsonrpc":"2.0"}')
START_IS_ERROR = "{extends: default, rules: {document-start: {level: error}}}"
MISSPELT = "extends: default\nrules:\n  line-lenght: disable\n"
FILES = {
    "f.yaml": b"a: 1\n",
    "empty.yaml": b"",
    "spaced.yaml": b"---\na:  1 \n",
    "bytes.yaml": b"a: \xc3",
    "misspelt": MISSPELT.encode(),
    "rules": b"\xef\xbb\xbfextends: default\nrules:\n  document-start: disable\n",
}

# A run: its program and its words, what is to come on standard output, on standard error and as status, what it is given on
# standard input, and the shell's words for where input and output go.
Case = namedtuple("Case", "program words out err status given shell", defaults=("", "", 0, b"", ""))

CASES = [
    Case("yamllint", ["empty.yaml"], "", "", 0),
    Case("yamllint", ["f.yaml"], NO_START, "", 0),
    Case("yamllint", ["-s", "f.yaml"], NO_START, "", 2),
    Case("yamllint", ["--no-warnings", "-s", "f.yaml"], "", "", 2),
    Case("yamllint", ["spaced.yaml"], COLON_AND_BLANK, "", 1),
    Case("yamllint", ["-s", "f.yaml", "spaced.yaml"], NO_START + COLON_AND_BLANK, "", 1),
    Case("yamllint", ["-"], NO_START.replace("f.yaml", "stdin"), "", 0, b"a: 1\n"),
    Case("yamllint", ["-c", "rules", "f.yaml"], "", "", 0),
    Case("yamllint", ["-d", START_IS_ERROR, "f.yaml"], NO_START.replace("warning", "error"), "", 1),
    Case("yamllint", ["-d", "default", "-s", "f.yaml"], NO_START, "", 2),
    # Words, configurations and files that are refused.
    Case("yamllint", [], "", "yamllint: fault of use\n", 255),
    Case("yamllint", ["-f", "other", "f.yaml"], "", "yamllint: fault of use\n", 255),
    Case("yamllint", ["-c", "misspelt", "-d", "default", "f.yaml"], "", "yamllint: fault of use\n", 255),
    Case("yamllint", ["-d", MISSPELT, "f.yaml"], "", "yamllint: configuration: UnknownRule at 3:3\n", 255),
    Case("yamllint", ["-c", "misspelt", "f.yaml"], "", "yamllint: configuration: UnknownRule at 3:3\n", 255),
    Case("yamllint", ["-d", "relaxed", "f.yaml"], "", "yamllint: configuration: UnknownExtends at 1:10\n", 255),
    Case("yamllint", ["-c", "folder", "f.yaml"], "", "yamllint: folder: cannot be read\n", 255),
    Case("yamllint", ["folder"], "", "yamllint: folder: cannot be read\n", 255),
    Case("yamllint", ["none.yaml"], "", "yamllint: none.yaml: cannot be read\n", 255),
    Case("yamllint", ["f.yaml", "folder", "spaced.yaml"], NO_START, "yamllint: folder: cannot be read\n", 255),
    Case("yamllint", ["bytes.yaml"], "", "yamllint: bytes.yaml: not UTF-8 at byte 3\n", 255),
    Case("yamllint", ["-"], "", "yamllint: stdin: cannot be read\n", 255, b"", "<&-"),
    Case("yamllint", ["-"], "", "yamllint: stdin: cannot be read\n", 255, b"", "<folder"),
    # Output that fails.
    Case("yamllint", ["f.yaml"], "", "yamllint: output cannot be written\n", 255, b"", ">/dev/full"),
    Case("yamllint", ["f.yaml"], "", "yamllint: output cannot be written\n", 255, b"", ">&-"),
    Case("yamllint", ["empty.yaml"], "", "", 0, b"", ">&-"),
    Case("yamllint", ["--help"], "", "yamllint: output cannot be written\n", 255, b"", ">/dev/full"),
    Case("yledit", ["-c", "rules", "f.yaml"], "-- ok 0\n", "", 0),
    Case("yledit", ["-d", START_IS_ERROR, "f.yaml"], NO_START.replace("warning", "error") + "-- ok 1\n", "", 1),
    # Commands.
    Case("yledit", ["f.yaml"], NO_START + "-- ok 0\n-- ok 0\n-- refused Range\n", "", 0, b"replace 0 0 0 0 4\n---\nreplace 9 0 9 0 0\n"),
    Case("yledit", ["f.yaml"], NO_START + "-- ok 0\n" + NO_START + "-- ok 0\n-- ok 0\n", "", 0, b"replace 0 3 0 4 1\n2replace 0 0 0 1 5\n---\nb"),
    Case("yledit", ["f.yaml"], NO_START + "-- ok 0\n" + 2 * "-- refused Range\n", "", 0, b"replace 4294967296 0 0 0 0\nreplace 0 1 0 0 0\n"),
    Case("yledit", ["-s", "f.yaml"], NO_START + "-- ok 2\n", "", 2),
    Case("yledit", ["--no-warnings", "-s", "f.yaml"], "-- ok 2\n", "", 2),
    Case("yledit", ["f.yaml"], NO_START + "-- ok 0\n", "yledit: bad command\n", 255, b"replace 0 1 0 1 9\nab"),
    Case("yledit", ["f.yaml"], NO_START + "-- ok 0\n", "yledit: bad command\n", 255, b"\n"),
    Case("yledit", ["f.yaml"], NO_START + "-- ok 0\n", "yledit: bad command\n", 255, b"replace 0 0 1 0 67108865\n"),
    Case("yledit", ["f.yaml"], NO_START + "-- ok 0\n", "yledit: bad command\n", 255, b"replace 0 0 1 0 0"),
    Case("yledit", ["f.yaml"], NO_START + "-- ok 0\n", "yledit: bad command\n", 255, b"replace 0 1 0\n"),
    Case("yledit", ["f.yaml"], NO_START + "-- ok 0\n-- ok 0\n", "yledit: bad command\n", 255, b"replace 0 0 0 0 4\n---\nput\n"),
    Case("yledit", ["f.yaml"], NO_START + "-- ok 0\n", "yledit: stdin: cannot be read\n", 255, b"", "<&-"),
    Case("yledit", ["f.yaml"], NO_START + "-- ok 0\n", "yledit: stdin: cannot be read\n", 255, b"", "<folder"),
    Case("yledit", ["-"], "", "yledit: fault of use\n", 255),
    Case("yledit", ["--strict", "f.yaml"], "", "yledit: fault of use\n", 255),
    Case("yledit", ["-d", MISSPELT, "f.yaml"], "", "yledit: configuration: UnknownRule at 3:3\n", 255),
    Case("yledit", ["folder"], "", "yledit: folder: cannot be read\n", 255),
    Case("yledit", ["bytes.yaml"], "", "yledit: bytes.yaml: not UTF-8 at byte 3\n", 255),
    Case("yledit", ["f.yaml"], "", "yledit: output cannot be written\n", 255, b"", ">/dev/full"),
    Case("yledit", ["f.yaml"], "", "yledit: output cannot be written\n", 255, b"", ">&-"),
    # Files and folders.
    Case("zutkrad", ["check", "f.yaml"], STANDARD, "", 0),
    Case("zutkrad", ["check", "-f", "parsable", "-s", "f.yaml", "empty.yaml"], NO_START, "", 2),
    Case("zutkrad", ["check", "-f", "parsable", "--no-warnings", "spaced.yaml", "f.yaml"], COLON_AND_BLANK, "", 1),
    Case("zutkrad", ["check", "-f", "colored", "f.yaml"], COLORED, "", 0),
    Case("zutkrad", ["check", "-f", "github", "f.yaml"], GITHUB, "", 0),
    Case("zutkrad", ["check", "-f", "parsable", "-"], NO_START.replace("f.yaml", "stdin"), "", 0, b"a: 1\n"),
    Case("zutkrad", ["check", "-c", "rules", "f.yaml"], "", "", 0),
    Case("zutkrad", ["check", "-d", "relaxed", "-s", "f.yaml"], "", "", 0),
    Case("zutkrad", ["check", "-d", "{extends: default, ignore: f.yaml}", "f.yaml", "none.yaml", "empty.yaml"], "",
         "zutkrad: none.yaml: cannot be read\n", 255),
    Case("zutkrad", ["check", "--list-files", "."], "./bytes.yaml\n./empty.yaml\n./f.yaml\n./long.yaml\n./spaced.yaml\n", "", 0),
    Case("zutkrad", ["check", "--list-files", "folder", "rules", "none"], "rules\nnone\n", "", 0),
    Case("zutkrad", ["check", "-f", "parsable", "bytes.yaml", "f.yaml"], NO_START, "zutkrad: bytes.yaml: not UTF-8 at byte 3\n", 255),
    Case("zutkrad", ["check", "-v"], "zutkrad 0.1.0\n", "", 0),
    Case("zutkrad", ["check", "-f", "other", "f.yaml"], "", "zutkrad: fault of use\n", 255),
    Case("zutkrad", ["check", "-c", "misspelt", "f.yaml"], "", "zutkrad: misspelt: configuration: UnknownRule at 3:3\n", 255),
    Case("zutkrad", ["check", "-d", MISSPELT, "f.yaml"], "", "zutkrad: configuration: UnknownRule at 3:3\n", 255),
    Case("zutkrad", ["check", "-c", "folder", "f.yaml"], "", "zutkrad: folder: cannot be read\n", 255),
    Case("zutkrad", ["check", "f.yaml"], "", "zutkrad: output cannot be written\n", 255, b"", ">/dev/full"),
    Case("zutkrad", ["check", "--list-files", "."], "", "zutkrad: output cannot be written\n", 255, b"", ">/dev/full"),
    Case("zutkrad", ["check", "empty.yaml"], "", "", 0, b"", ">&-"),
    Case("zutkrad", ["check", "-"], "", "zutkrad: stdin: cannot be read\n", 255, b"", "<&-"),
    # The server.
    Case("zutkrad", ["--version"], "zutkrad 0.1.0\n", "", 0),
    Case("zutkrad", [], "", "zutkrad: fault of use\n", 255),
    Case("zutkrad", ["server", "f.yaml"], "", "zutkrad: fault of use\n", 255),
    Case("zutkrad", ["server"], "", "", 1),
    Case("zutkrad", ["server"], NOT_BEGUN, "", 1, SHUTDOWN + EXIT + b"never read"),
    Case("zutkrad", ["server"], NOT_BEGUN, "zutkrad: bad command\n", 1, SHUTDOWN + b"\r\n"),
    Case("zutkrad", ["server"], "", "zutkrad: bad command\n", 1, EXIT[:-1]),
    Case("zutkrad", ["server"], "", "zutkrad: stdin: cannot be read\n", 1, b"", "<&-"),
    Case("zutkrad", ["server"], "", "zutkrad: stdin: cannot be read\n", 1, b"", "<folder"),
    Case("zutkrad", ["server"], "", "zutkrad: output cannot be written\n", 1, SHUTDOWN, ">/dev/full"),
]

# What the longer runs lint and edit: lines of each kind, with problems of each kind.
LONG_TEXT = b"""---
# yamllint disable-line rule:colons
a:  1
# yamllint disable rule:commas
b: [1,2 , {c: yes, "d": 'e'}]
# yamllint enable rule:commas
f: &g |
  some text
h: *g
a: *i
j:
    - "k\\u00e9l"
    - >-
      more text
    -  !!str a plain scalar
      over lines
l:
  m: words \n


n: a line that is too long, with words that go on and on, past its last column and on
---
o: 1
"""
LONG_CONFIG = """extends: default
rules:
  truthy: {allowed-values: ["yes", "no"]}
  quoted-strings: {quote-type: double, required: true}
  indentation: {spaces: 4}
  key-ordering: enable
"""

# A configuration with patterns.
PATTERNS = """extends: relaxed
ignore: |
  bytes.*
  !a[b-d]*/**/e?
rules:
  trailing-spaces: {ignore: [long.yaml, "/folder/"]}
"""

# A configuration of many events.
MANY = "rules: {}\nignore: [" + ", ".join(["a"] * 20_000) + "]\n"


def command(first, count, line):
    """The command that puts a line, or none, in place of so many lines."""
    put = b"" if line is None else line + b"\n"
    return b"replace %d 0 %d 0 %d\n" % (first, first + count, len(put)) + put


def inside(line, from_column, to_column, put):
    """The command that puts bytes in place of some characters of a line."""
    return b"replace %d %d %d %d %d\n" % (line, from_column, line, to_column, len(put)) + put


COMMANDS = [
    command(2, 1, b"a: 1"),
    command(23, 1, b"o: 12"),
    command(23, 1, b"o: 12 "),
    command(23, 1, b"o: 12 b"),
    inside(23, 6, 7, b""),
    # A line that ends in a carriage return, and a line feed behind that, which is one break with it.
    inside(3, 0, 0, b"s: 1\r"),
    inside(4, 0, 0, b"\n"),
    command(3, 1, None),
    command(23, 0, b"p: on"),
    command(23, 0, b"# yamllint disable"),
    command(23, 1, None),
    command(8, 1, b"h: 'x"),
    command(23, 1, b"p: off"),
    command(8, 1, b"h: 'x'"),
    command(4, 1, b"b: [1,2 , {c: yes"),
    command(4, 1, b"b: [1,2 , {c: yes}]"),
    command(16, 0, b"---"),
    command(16, 1, None),
    command(90, 1, None),
    command(0, 24, b"q: 1"),
]


class Runs:
    """The programs, run in a folder of files."""

    def __init__(self, paths, folder):
        self.paths = dict(zip(PROGRAMS, paths))
        self.folder = folder
        self.library = os.path.join(folder, "refusing.so")
        self.told = os.path.join(folder, "told")
        self.wrong = 0
        # No configuration of the user who runs this is found.
        self.env = {name: value for name, value in os.environ.items() if name not in OF_A_USER} | {"HOME": folder}
        subprocess.run(["cc", "-shared", "-fPIC", "-O1", "-o", self.library, os.path.join(HERE, "refusing.c")], check=True)

    def ran(self, case, shell="", **more):
        """What comes of a run: its output, its fault and its status."""
        words = ["sh", "-c", f'exec "$0" "$@" {shell}', self.paths[case.program], *case.words]
        if not shell:
            words = words[3:]
        run = subprocess.run(words, input=case.given, capture_output=True, cwd=self.folder, timeout=SECONDS,
                             env={**self.env, **more}, check=False)
        return run.stdout.decode(), run.stderr.decode(), run.returncode

    def refused(self, case, number):
        """What comes of a run whose request of this number is refused, or None where there is none of this number."""
        come = self.ran(case, LD_PRELOAD=self.library, REFUSED_REQUEST=str(number), REFUSAL_TOLD=self.told)
        if not os.path.exists(self.told):
            return None
        os.remove(self.told)
        return come

    def tell(self, what, case, come):
        self.wrong += 1
        words = " ".join(repr(word) if " " in word or "\n" in word else word for word in case.words)
        print(f"{case.program} {words} {case.shell}: {what}: {come}", flush=True)


def check_cases(runs):
    for case in CASES:
        come = runs.ran(case, case.shell)
        if come != (case.out, case.err, case.status):
            runs.tell(f"{(case.out, case.err, case.status)} is to come, and there came", case, come)
    print(f"{len(CASES)} runs")


def ends_without_memory(case, whole, come):
    """Whether a run ended early for want of memory: with a beginning of the answers."""
    out, err, status = come
    said = re.fullmatch(rf"{case.program}: (out of memory|(\w+: )?configuration: Memory)\n", err)
    return status == 255 and said is not None and whole[0].startswith(out)


def answers(out):
    """The answers of yledit, each with its report."""
    found, answer = [], ""
    for line in out.splitlines(keepends=True):
        answer += line
        if line.startswith("-- "):
            found.append(answer)
            answer = ""
    return found


def without_each(runs, case, commands):
    """What may come where one of the commands is refused: that of a run without it, and the refusal in its place."""
    may_come = set()
    for i in range(len(commands)):
        given = b"".join(commands[:i] + commands[i + 1:])
        out, err, status = runs.ran(case._replace(given=given))
        told = answers(out)
        may_come.add(("".join(told[:i + 1] + ["-- refused Memory\n"] + told[i + 1:]), err, status))
    return may_come


def refuse_each(runs, case, may_come):
    """Refuses each request of a run in turn: it ends early, or this may come."""
    whole = runs.ran(case)
    number, ended = 1, 0
    while (come := runs.refused(case, number)) is not None:
        # A run that ends early has given all answers to the commands before.
        if ends_without_memory(case, whole, come) and (case.program != "yledit" or "".join(answers(come[0])) == come[0]):
            ended += 1
        elif come not in may_come:
            out, err, status = come
            told = [line for line in out.splitlines() if line.startswith("-- refused")]
            what = "all as if none had been" if come == whole else (told, out[-100:], err, status)
            runs.tell(f"with request {number} refused there came", case, what)
        number += 1
    print(f"{case.program} {' '.join(case.words[:3])}: {number - 1} requests refused, {ended} of them ended the run".replace("\n", " "))


def refuse_files(runs, case):
    """Refuses each request of a run over files in turn: it ends early, or a file is left out and what comes after it is not."""
    whole = runs.ran(case)
    number, ended, without = 1, 0, 0
    while (come := runs.refused(case, number)) is not None:
        out, err, status = come
        lines = iter(whole[0].splitlines())
        if ends_without_memory(case, whole, come):
            ended += 1
        elif status == 255 and err == "zutkrad: out of memory\n" and all(line in lines for line in out.splitlines()):
            without += 1
        else:
            runs.tell(f"with request {number} refused there came", case, come)
        number += 1
    print(f"zutkrad check: {number - 1} requests refused, {ended} of them ended the run, {without} took a file away")


def check_refusals(runs):
    for words in (["--help"], ["long.yaml"], ["-s", "-c", "settings", "f.yaml", "long.yaml", "-"], ["-c", "many", "f.yaml"]):
        refuse_each(runs, Case("yamllint", words, given=LONG_TEXT), set())
    for words in (["-f", "other", "f.yaml"], ["--strikt", "f.yaml"], ["-q"], ["-c", "settings", "-d", "default", "f.yaml"], []):
        refuse_each(runs, Case("yamllint", words), set())
    for words in (["--strict", "f.yaml"], ["-s", "f.yaml", "long.yaml"]):
        refuse_each(runs, Case("yledit", words), set())
    for words in (["--help"], ["check", "-h"], ["check", "-q"]):
        refuse_each(runs, Case("zutkrad", words), set())
    for words in (["--list-files", "."], ["-f", "parsable", "f.yaml", "long.yaml", "."]):
        refuse_files(runs, Case("zutkrad", ["check", "-c", "patterns", *words]))
    for words in (["long.yaml"], ["--work", "-d", LONG_CONFIG, "long.yaml"]):
        case = Case("yledit", words, given=b"".join(COMMANDS))
        refuse_each(runs, case, without_each(runs, case, COMMANDS))


def main():
    built = [os.path.join(os.path.dirname(HERE), "crates", name, "out", name) for name in PROGRAMS]
    paths = [os.path.abspath(path) for path in sys.argv[1:]] or built
    if len(paths) != len(PROGRAMS):
        sys.exit(__doc__)
    with tempfile.TemporaryDirectory() as folder:
        os.mkdir(os.path.join(folder, "folder"))
        more = {"long.yaml": LONG_TEXT, "settings": LONG_CONFIG.encode(), "many": MANY.encode(), "patterns": PATTERNS.encode()}
        for name, text in {**FILES, **more}.items():
            with open(os.path.join(folder, name), "wb") as file:
                file.write(text)
        runs = Runs(paths, folder)
        check_cases(runs)
        check_refusals(runs)
    sys.exit(1 if runs.wrong else None)


if __name__ == "__main__":
    main()
