#!/usr/bin/env python3
"""latency.py [--mib MIB] [--count COUNT] [--peer EFM] [--yledit YLEDIT] [COMMAND..]: how long an editor waits for `zutkrad server`.

COMMAND is crates/zutkrad/out/zutkrad server of this checkout unless another is given. EFM is Debian's efm-langserver with its
yamllint; it lints the whole text anew at each change, so it gets small texts alone. YLEDIT, crates/yledit/out/yledit, is given the
same large texts and changes, and shows what of the time is the session's. Who of these is not there is left out, and that is said.
Times are by the clock, at the client:

    start    from the start of the process to the answer to `initialize`
    open     from the first byte of `didOpen` to the last of its `publishDiagnostics`; of yledit from its start to its first answer
    change   from the first byte of `didChange` to the last of its `publishDiagnostics`; of yledit from its command to its answer

Texts of some 1.6, 17 and 180 kB are changed under both servers, in turns. Texts of MIB MiB (10 unless said otherwise) are changed
under ours: 1,000 documents with 10 problems, the same with more than the 1,000 that are shown, and one document with 10. Changes are
made at a text's start, in its middle and at its end, each in a fresh process: a letter is typed behind a value, then a blank, which is
a problem, and both are taken away. A server that takes changes in ranges gets ranges, another one the whole text. COUNT (200) changes
are made at each place, of efm-langserver a tenth. A row of the table has the median and the 99th percentile, in milliseconds, how
many diagnostics came with the last change and in how many bytes, and the peak memory of the process."""

import argparse
import json
import os
import shutil
import statistics
import subprocess
import sys
import tempfile
import time

import edit

HERE = os.path.dirname(os.path.abspath(__file__))
CRATES = os.path.join(os.path.dirname(HERE), "crates")
MIB = 1024 * 1024
STARTS = 20
SMALL = [1_600, 17_000, 180_000]
# How many documents each large text has, and how many problems.
LARGE = [(1000, 10), (1000, 20_000), (1, 10)]
WIDTHS = [52, 6, 14, 5, 10, 8, 5, 7, 11]
CONFIG = "{extends: default, rules: {key-duplicates: {level: warning}}}"
PEER = """version: 2
lint-debounce: 0s
languages:
  yaml:
    - lint-command: 'yamllint -f parsable -'
      lint-stdin: true
      lint-formats: ['%f:%l:%c: [%trror] %m', '%f:%l:%c: [%tarning] %m']
"""


class Editor:
    """An editor with one text open under a server."""

    def __init__(self, command, folder):
        start = time.perf_counter_ns()
        pipes = {"stdin": subprocess.PIPE, "stdout": subprocess.PIPE, "stderr": subprocess.DEVNULL}
        self.process = subprocess.Popen(command, **pipes, bufsize=0, cwd=folder)
        self.held, self.version, self.uri = bytearray(), 0, f"file://{folder}/text.yaml"
        options = {"zutkrad": {"config": CONFIG}}
        params = {"processId": None, "rootUri": f"file://{folder}", "capabilities": {}, "initializationOptions": options}
        self.send({"id": 0, "method": "initialize", "params": params})
        answer, end, _ = self.until(lambda message: message.get("id") == 0)
        self.started = end - start
        sync = answer["result"]["capabilities"]["textDocumentSync"]
        self.is_whole = (sync if isinstance(sync, int) else sync["change"]) == 1
        self.send({"method": "initialized", "params": {}})

    def send(self, message):
        """Sends a message, and tells when its first byte was written."""
        body = json.dumps({"jsonrpc": "2.0", **message}).encode()
        data = memoryview(b"Content-Length: %d\r\n\r\n" % len(body) + body)
        start = time.perf_counter_ns()
        while data:
            data = data[os.write(self.process.stdin.fileno(), data):]
        return start

    def body(self):
        """The next body, and when the last of it was read."""
        needed = None
        while needed is None or len(self.held) < needed:
            head = self.held.find(b"\r\n\r\n")
            if head >= 0:
                fields = dict(line.lower().split(b":", 1) for line in bytes(self.held[:head]).split(b"\r\n"))
                needed = head + 4 + int(fields[b"content-length"])
                if len(self.held) >= needed:
                    break
            piece = os.read(self.process.stdout.fileno(), 65_536)
            if not piece:
                sys.exit("the server ended")
            self.held += piece
        end = time.perf_counter_ns()
        body = bytes(self.held[head + 4:needed])
        del self.held[:needed]
        return body, end

    def until(self, test):
        """The first message that is asked for, when the last of it was read, and its size."""
        while True:
            body, end = self.body()
            message = json.loads(body)
            if "id" in message and "method" in message:
                self.send({"id": message["id"], "result": None})
            elif test(message):
                return message, end, len(body)

    def published(self, method, document, **more):
        """How long it takes until a text is published that is sent so, how many diagnostics come, and in how many bytes."""
        self.version += 1
        document = {"uri": self.uri, "version": self.version, **document}
        start = self.send({"method": method, "params": {"textDocument": document, **more}})
        message, end, size = self.until(lambda message: message.get("method") == "textDocument/publishDiagnostics"
                                        and message["params"].get("version", self.version) == self.version)
        return end - start, len(message["params"]["diagnostics"]), size

    def open(self, text):
        return self.published("textDocument/didOpen", {"languageId": "yaml", "text": text})

    def change(self, lines, line, column, end_column, put):
        """Puts a text in place of some columns of a line."""
        lines[line] = lines[line][:column] + put + lines[line][end_column:]
        start, end = ({"line": line, "character": at} for at in (column, end_column))
        change = {"text": "\n".join(lines)} if self.is_whole else {"range": {"start": start, "end": end}, "text": put}
        return self.published("textDocument/didChange", {}, contentChanges=[change])

    def close(self):
        """The most memory that the server had, in bytes."""
        try:
            self.send({"id": 1, "method": "shutdown"})
            self.send({"method": "exit"})
        except BrokenPipeError:
            pass  # efm-langserver ends at `shutdown`.
        self.process.stdin.close()
        _, status, usage = os.wait4(self.process.pid, 0)
        self.process.returncode = os.waitstatus_to_exitcode(status)
        return usage.ru_maxrss * 1024


def changes(column):
    """A letter and a blank are typed behind the value of a line, and taken away."""
    return [(column, column, "s"), (column + 1, column + 1, " "), (column + 1, column + 2, ""), (column, column + 1, "")]


def most(times):
    return sorted(times)[min(len(times) - 1, int(len(times) * 0.99))]


def cells(*parts):
    print("| " + " | ".join(f"{part:{width}}" for part, width in zip(parts, WIDTHS)) + " |", flush=True)


def heads():
    cells("Text", "Server", "What", "Times", "Median, ms", "99 %, ms", "Shown", "Bytes", "Peak memory")
    print("|---" * len(WIDTHS) + "|")


def row(text, server, what, times, diagnostics="", size="", peak=""):
    median, high = (f"{spent / 1e6:.2f}" for spent in (statistics.median(times), most(times)))
    cells(text, server, what, str(len(times)), median, high, str(diagnostics), str(size), f"{peak / MIB:.0f} MiB" if peak else "")


def show_starts(server, command, folder):
    times = []
    for _ in range(STARTS):
        editor = Editor(command, folder)
        times.append(editor.started)
        editor.close()
    row("", server, "start", times)


def rows(text, server, opens, changed):
    """The rows of a text under a server: what opening it took, and of each place what changes took, what was shown, and the memory."""
    row(text, server, "open", opens)
    for place, (times, diagnostics, size, peak) in changed.items():
        row(text, server, f"change, {place}", times, diagnostics, size, peak)


def show_text(name, server, command, path, places, count):
    """Opens a text and changes it at each place."""
    with open(path, encoding="utf-8") as file:
        text = file.read()
    opens, changed = [], {}
    for place, share in edit.PLACES.items():
        editor, lines = Editor(command, os.path.dirname(path)), text.split("\n")
        opens.append(editor.open(text)[0])
        line = places[int((len(places) - 1) * share)]
        times = []
        while len(times) < count:
            for change in changes(len(lines[line])):
                spent, diagnostics, size = editor.change(lines, line, *change)
                times.append(spent)
        changed[place] = times, diagnostics, size, editor.close()
    rows(name, server, opens, changed)


def show_session(name, program, path, places, count):
    """The same by yledit."""
    with open(path, encoding="utf-8") as file:
        lines = file.read().split("\n")
    opens, changed = [], {}
    for place, share in edit.PLACES.items():
        session = edit.Opened(program, path)
        opens.append(session.spent)
        line = places[int((len(places) - 1) * share)]
        times = []
        while len(times) < count:
            for begin, end, put in changes(len(lines[line])):
                times.append(session.edit(f"replace {line} {begin} {line} {end} {len(put)}\n{put}".encode())[0])
        changed[place] = times, "", "", session.close()
    rows(name, "yledit", opens, changed)


def main():
    words = argparse.ArgumentParser()
    words.add_argument("--mib", type=float, default=10)
    words.add_argument("--count", type=int, default=200)
    words.add_argument("--peer", default="efm-langserver")
    words.add_argument("--yledit", default=os.path.join(CRATES, "yledit", "out", "yledit"))
    words.add_argument("command", nargs="*", default=[os.path.join(CRATES, "zutkrad", "out", "zutkrad"), "server"])
    words = words.parse_args()
    servers = {"ours": [os.path.abspath(word) if os.path.exists(word) else word for word in words.command]}
    with tempfile.TemporaryDirectory() as folder:
        path, peer = (os.path.join(folder, name) for name in ("text.yaml", "efm.yaml"))
        with open(peer, "w") as file:
            file.write(PEER)
        if shutil.which(words.peer) and shutil.which("yamllint"):
            servers["efm"] = [words.peer, "-c", peer]
        else:
            print("efm-langserver or yamllint is not installed, so they are left out")
        has_session = shutil.which(words.yledit) is not None
        if not has_session:
            print("yledit is not built, so it is left out")
        heads()
        for server, command in servers.items():
            show_starts(server, command, folder)
        for size in SMALL:
            places = edit.write_text(path, size, 1, 3, "nothing")
            for server, command in servers.items():
                name = f"{os.path.getsize(path):,} bytes, 3 problems"
                show_text(name, server, command, path, places, words.count if server == "ours" else max(words.count // 10, 4))
        for documents, problems in LARGE:
            places = edit.write_text(path, int(words.mib * MIB), documents, problems, "nothing")
            many = f"{documents:,} documents" if documents > 1 else "one document"
            name = f"{os.path.getsize(path):,} bytes, {many}, {problems:,} problems"
            show_text(name, "ours", servers["ours"], path, places, words.count)
            if has_session:
                show_session(name, words.yledit, path, places, words.count)


if __name__ == "__main__":
    main()
