#!/usr/bin/env python3
"""cases.py [--check] [CRATE..]: writes the file stdout of yl_text_cases, yl_session_cases, yl_frames_cases, yl_rpc_cases, yl_server_cases,
yl_patterns_cases and yl_project_cases, or of those that are named, what the model of tools/model says of the cases in their files stdin.

With --check it writes nothing, and ends with 1 where a file says otherwise. So what these programs are to print is never
taken from a program of this repository."""

import os
import re
import sys

HERE = os.path.dirname(os.path.abspath(__file__))
sys.path.insert(0, HERE)

from model import dump  # noqa: E402
from model.config import Config, ConfigFault  # noqa: E402
from model.exchanges import message_bytes, refused  # noqa: E402
from model.lint import Text, report  # noqa: E402
from model.patterns import BadPattern, is_among  # noqa: E402
from model.project import Project, names  # noqa: E402
from model.project import read as read_project  # noqa: E402
from model.report import printed, status  # noqa: E402
from model.server import IGNORED, UNREADABLE, Server, no_files  # noqa: E402
from model.text import TextFault, decode, edited, split  # noqa: E402
from model.wire import (INVALID_REQUEST, METHOD_NOT_FOUND, NULL, PARSE_ERROR, Invalid, NoJson, NoMessage, Request, Response,  # noqa: E402
                        TooDeep, answer, call_of, failure, framed, next_body, read, written)

CRATES = os.path.join(os.path.dirname(HERE), "crates")
ESCAPE = re.compile(r"\\(?:u\{([0-9A-Fa-f]+)\}|x\{([0-9A-Fa-f]+)\}|([nrt\\]))")
LETTERS = {"n": b"\n", "r": b"\r", "t": b"\t", "\\": b"\\"}
SHOWN = {"lexemes": dump.lexemes, "events": dump.events, "lines": dump.lines}
LONG = 2000
LONG_LINE = 200
SHOWN_OF_MESSAGE = 80
FRONTS = ("more", "times", "keys", "stairs")


def unescaped(text):
    """The bytes that a case says."""
    said, end = b"", 0
    for found in ESCAPE.finditer(text):
        said += text[end:found.start()].encode()
        said += (chr(int(found[1], 16)).encode() if found[1] else
                 bytes([int(found[2], 16)]) if found[2] else LETTERS[found[3]])
        end = found.end()
    return said + text[end:].encode()


def front_of(word, rest):
    """What a case has the next text go on with."""
    if word == "more":
        return unescaped(rest)
    if word == "times":
        count, _, rest = rest.partition(" ")
        return unescaped(rest) * int(count)
    if word == "keys":
        return "".join(f"k{n:05}: v\n" for n in range(int(rest))).encode()
    return "".join(" " * depth + "k:\n" for depth in range(int(rest))).encode()


def fault_of(text):
    """The configuration that a text says, and the line that tells its fault."""
    try:
        return Config.read(text), ""
    except ConfigFault as fault:
        place = f" at {fault.place[0]}:{fault.place[1]}" if fault.place else ""
        return None, f"{fault.name}{place}\n"


def sum_of(data):
    total = 0
    for byte in data:
        total = (total * 31 + byte) % 2 ** 32
    return total


def told(text):
    """A text, or where it is long a line of it."""
    data = text.encode()
    return text if len(data) <= LONG else f"{len(data)} bytes, sum {sum_of(data)}\n"


def name_of(fault):
    place = f" {fault.valid_up_to}" if fault.name == "NotUtf8" else ""
    return f"{fault.name}{place}\n"


class Session:
    """A text that is kept open under a configuration."""

    def __init__(self, config, data):
        self.config = config
        self.take(decode(data))

    def take(self, text):
        self.text = text
        self.problems = report(self.config, Text(text))

    def report(self):
        return told(printed("", self.problems))

    def state(self):
        lines = "".join(f"{row.text}|" for row in split(self.text))
        statuses = f" {status(self.problems, False)} {status(self.problems, True)}\n"
        return told(lines + statuses + printed("", self.problems))

    def line_start(self, line):
        rows = split(self.text)
        return (line, 0) if line < len(rows) else (len(rows) - 1, len(rows[-1].text))

    def edit(self, begin, behind, data):
        """How an edit is answered."""
        try:
            edit = edited(self.text, begin, behind, data)
        except TextFault as fault:
            return name_of(fault)
        if not edit.is_nothing:
            self.take(edit.text)
        return "edited\n"


def numbers(rest, count):
    """So many numbers, and what is behind them."""
    found = []
    for _ in range(count):
        word, _, rest = rest.partition(" ")
        found.append(2 ** 32 - 1 if word == "-" else int(word))
    return found, rest


def answers(lines):
    """Of each case the case itself, and then what comes of it."""
    config, front, session = Config.standard(), b"", None
    for line in lines:
        if not line or line.startswith("#"):
            continue
        yield line + "\n"
        word, _, rest = line.partition(" ")
        if word in ("growths", "most", "exactly"):
            continue
        if word in FRONTS:
            front += front_of(word, rest)
            continue
        if word == "edit":
            (a, b, _, _), rest = numbers(rest, 4)
            answer = session.edit(session.line_start(a), session.line_start(b), front + unescaped(rest))
            yield answer + session.report()
        elif word == "put":
            (line, column, end_line, end_column, _, _), rest = numbers(rest, 6)
            answer = session.edit((line, column), (end_line, end_column), front + unescaped(rest))
            yield answer + session.state()
        elif word == "open":
            try:
                session = Session(config, front + unescaped(rest))
                yield session.report()
            except TextFault as fault:
                session = None
                yield name_of(fault) + "no text is open\n"
        elif word == "config":
            read, said = fault_of(front + unescaped(rest))
            config = read or config
            yield said
        elif word == "lint":
            yield printed("", report(config, Text(decode(front + unescaped(rest)))))
        elif word in SHOWN:
            yield "".join(f"{line}\n" for line in SHOWN[word](Text(decode(front + unescaped(rest)))))
        front = b""


def frame_lines(word, data):
    """The messages that bytes are, or the message of a text."""
    if word == "send":
        yield framed(written(data.decode()).encode())
        return
    try:
        while found := next_body(data):
            body, data = found
            yield b"= " + body
        yield b"= end"
    except NoMessage:
        yield b"= bad"


def call_answers(data):
    """What bytes are as a call, and what it may be answered."""
    try:
        call = call_of(read(data))
    except NoJson as fault:
        words = "too deep" if isinstance(fault, TooDeep) else "no JSON"
        return words, [failure(NULL, PARSE_ERROR, words)]
    if isinstance(call, Invalid):
        return "invalid", [failure(call.id, INVALID_REQUEST, "no call")]
    if isinstance(call, Response):
        return "response", []
    params = "" if call.params is None else ", with params"
    if isinstance(call, Request):
        return f"request {call.method}{params}", [answer(call.id, NULL), failure(call.id, METHOD_NOT_FOUND, "unknown method")]
    return f"notification {call.method}{params}", []


def call_lines(_, data):
    """The lines of a call and its answers, long ones without their middle."""
    what, messages = call_answers(data)
    lines = [f"= {what}".encode()]
    for message in messages:
        lines += framed(written(message).encode()).split(b"\n")
    for line in lines:
        yield line if len(line) <= LONG_LINE else line[:80] + b" .. " + line[-40:]


def pattern_lines(_, data):
    """Whether a path is among the patterns of lines."""
    path, _, lines = data.decode().partition("|")
    try:
        yield b"fits" if is_among(lines.split("|"), path) else b"-"
    except BadPattern:
        yield b"bad"


def by_bytes(tell):
    """The answers to cases that are told of by their words and bytes alone."""
    def answers_of(lines):
        front = b""
        for line in lines:
            if not line or line.startswith("#"):
                continue
            yield line + "\n"
            word, _, rest = line.partition(" ")
            if word in FRONTS:
                front += front_of(word, rest)
                continue
            yield "".join(told.decode() + "\n" for told in tell(word, front + unescaped(rest)))
            front = b""
    return answers_of


class Files:
    """Files whose names say what is in them: at the first reading what stands before the first bar, and so on. Behind the question mark
    of a URI stands in the same way what files say of its document, each time that a document is asked for: a configuration, or one of
    these words."""

    WORDS = {"ignored": IGNORED, "unreadable": UNREADABLE}

    def __init__(self):
        self.readings, self.askings = 0, 0

    def folders(self, uri, is_known):
        said = uri.partition("?")[2].split("|")[self.askings:]
        self.askings += 1
        if not said or not said[0]:
            return no_files(uri, is_known)
        return self.WORDS.get(said[0], said[0].encode())

    def get(self, name):
        said = name.split("|")[self.readings:]
        self.readings += 1
        return said[0].encode() if said else None


class Given:
    """What a server reads, the messages among it, what it sends, and how much of that for the messages before each that it waits
    for."""

    def __init__(self, data):
        files = self.files
        server = Server(files.get, files.folders)
        self.bodies, self.sent, self.owed = [], [], []
        try:
            while server.status is None:
                self.owed.append(sum(map(len, self.sent)))
                found = next_body(data)
                if found is None:
                    break
                body, data = found
                self.bodies.append(body)
                self.sent += map(message_bytes, server.came(body))
            self.end = str(1 if server.status is None else server.status)
        except NoMessage:
            self.end = "Header"

    @property
    def files(self):
        return Files()

    def lines(self):
        """The messages that are sent, long ones without their middle, and the end."""
        for message in self.sent:
            body, _ = next_body(message)
            if len(body) <= LONG:
                yield body.decode()
            else:
                yield f"{body[:SHOWN_OF_MESSAGE].decode()} .. {body[-SHOWN_OF_MESSAGE:].decode()}"
                yield f"= {len(body)} bytes, sum {sum_of(body)}"
        yield f"= {self.end}"

    def trial_lines(self):
        """How much is out where it waits, and what else may be sent where memory is refused."""
        sums = {sum_of(run.out) * 2 + min(run.status, 1): None for run in refused(self)}
        sums.pop(sum_of(b"".join(self.sent)) * 2 + int(self.end), None)
        yield "= out " + " ".join(map(str, self.owed))
        yield "= refused " + " ".join(map(str, sums))


def filled(form, front, rest):
    """What a form stands for in a case."""
    first, *pieces = form.encode().split(b"$")
    said = first
    for piece in pieces[:-1]:
        word, _, rest = rest.partition(" ")
        said += unescaped(word) + piece
    return said + front + unescaped(rest) + pieces[-1] if pieces else said


def server_answers(lines):
    """Of each case the case itself, and then what a server sends for what it was given so far."""
    forms, front, data = {}, b"", b""
    for line in lines:
        if not line or line.startswith("#"):
            continue
        yield line + "\n"
        word, _, rest = line.partition(" ")
        if word in FRONTS:
            front += front_of(word, rest)
        elif word == "form":
            word, _, rest = rest.partition(" ")
            forms[word] = rest
        elif word in ("serve", "try"):
            given, data = Given(data), b""
            said = [*given.lines(), *(given.trial_lines() if word == "try" else ())]
            yield "".join(f"{line}\n" for line in said)
        else:
            body, front = filled(forms.get(word, "$"), front, rest), b""
            data += body if word == "bytes" else framed(body)


# The option of a rule that is printed.
SHOWN_OPTIONS = {"braces": "max-spaces-inside", "brackets": "max-spaces-inside", "comments": "min-spaces-from-content", "empty-lines": "max",
                 "indentation": "indent-sequences", "line-length": "max", "new-lines": "type"}
BASES = {"empty": Project.empty, "default": Project.standard, "relaxed": Project.relaxed}


def rule_line(rule, level, options):
    option = options.get(SHOWN_OPTIONS.get(rule))
    shown = "" if option is None else f" {str(option).lower()}"
    return f"= {rule} {level}{shown}"


def path_lines(project, path):
    """The rules that hold for a path."""
    levels = project.config_for(path)
    if levels is None:
        return ["= ignored"]
    return [rule_line(rule, level, project.config.options[rule]) for rule, level in sorted(levels.items())]


def name_lines(text):
    """The files that a configuration names."""
    extends, files = names(text)
    return ([] if extends is None else [f"= extends {extends}"]) + [f"= from {name}" for name in files]


class Projects:
    """The last project that was read, and what the next one is read with."""

    def __init__(self):
        self.project, self.base, self.lines = Project.empty(), "empty", b""

    def read(self, text):
        base = self.project if self.base == "last" else BASES[self.base]()
        self.project = Project.empty()
        self.project = read_project(text, base, self.lines.decode())
        return ["= read"]

    def said(self, word, rest, text):
        """The lines that a case has printed."""
        if word == "base":
            self.base = rest
        elif word == "lines":
            self.lines = text
        elif word == "path":
            return path_lines(self.project, rest)
        elif word == "yaml":
            return ["= yaml" if self.project.is_yaml(rest) else "= other"]
        else:
            try:
                return self.read(text) if word == "read" else name_lines(text)
            except ConfigFault as fault:
                return [f"= {fault.name}" + (f" at {fault.place[0]}:{fault.place[1]}" if fault.place else "")]
        return []


def project_answers(lines):
    """Of each case the case itself, and then what comes of it."""
    projects, front = Projects(), b""
    for line in lines:
        if not line or line.startswith("#"):
            continue
        yield line + "\n"
        word, _, rest = line.partition(" ")
        if word in FRONTS:
            front += front_of(word, rest)
        else:
            text = front + unescaped(rest)
            front = front if word in ("base", "path", "yaml") else b""
            yield "".join(f"{said}\n" for said in projects.said(word, rest, text))


CASES = {"yl_text_cases": answers, "yl_session_cases": answers, "yl_frames_cases": by_bytes(frame_lines), "yl_rpc_cases": by_bytes(call_lines),
         "yl_server_cases": server_answers, "yl_patterns_cases": by_bytes(pattern_lines), "yl_project_cases": project_answers}


def is_said(crate, is_check):
    """Whether a crate's stdout says what the model does; it is written unless that is asked alone."""
    with open(os.path.join(CRATES, crate, "stdin"), encoding="utf-8", newline="\n") as file:
        said = "".join(CASES[crate](file.read().split("\n")))
    path = os.path.join(CRATES, crate, "stdout")
    if not is_check:
        with open(path, "w", encoding="utf-8", newline="\n") as file:
            file.write(said)
    with open(path, encoding="utf-8", newline="\n") as file:
        return file.read() == said


def main():
    crates = [word for word in sys.argv[1:] if word != "--check"]
    if not set(crates) <= set(CASES):
        sys.exit(__doc__)
    return int(not all([is_said(crate, "--check" in sys.argv) for crate in crates or CASES]))


if __name__ == "__main__":
    sys.exit(main())
