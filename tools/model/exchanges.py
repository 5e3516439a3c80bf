"""Random exchanges: what an editor sends to the server, most of it good."""

from . import texts
from .places import units_of
from .programs import Run
from .server import BAD_HEADER, Document, Server, changed, no_files
from .text import MAX_BYTES, split
from .wire import MOST_OPEN, Number, framed, read, written

URIS = ["file:///w/a.yaml", "file:///w/b%20c.yaml", "untitled:1", 'x "\\\n\xe9\U0001f600', ""]
PUT = ["", "", "a", " ", "\n", "\r", "'", "- b\n", "# c", ":"]
WIDE = ["\xe9", "\u20ac", "\U0001f600", "\U00010000", "\r", "\r\n", "\x7f", "\ud83d", "\ude00", "\u2028"]
OTHER_REQUESTS = ["textDocument/hover", "textDocument/diagnostic", "workspace/symbol", "$/x", "", "initialized", "exit",
                  "textDocument/didOpen"]
OTHER_NOTIFICATIONS = ["textDocument/didSave", "workspace/didChangeWatchedFiles", "workspace/didChangeWorkspaceFolders", "$/setTrace",
                       "$/cancelRequest", "initialize", "shutdown", "textDocument/willSave", "initialized", ""]
NUMBERS = ["0", "1", "-1", "-0", "1.0", "1e2", "007", "4294967296", "18446744073709551615", "18446744073709551616", "1E-7"]
ENCODING_NAMES = ["utf-8", "utf-8", "utf-16", "utf-32", "utf-32", "utf-7", "UTF-8", "", 8, None]
CONFIG_FILES = ["good", "other", "marked", "marked", "bytes", "none", "folder", ""]
BREAKERS = [b"{", b"}", b'"', b",", b":", b"\\", b"\\ud800", b"\xff", b"\x01", b"\xc3", b"[" * 130, b"0", b"\xef\xbb\xbf"]
# Fields beside the length, and broken ends of the input, which are no messages.
FIELDS = [b"Content-Type: application/vscode-jsonrpc; charset=utf-8\r\n", b"X:\r\n", b":\r\n", b"a: b\r\n" * 63,
          b"n:" + b"y" * 254 + b"\r\n"]
BROKEN_HEADS = [b"\r\n", b"Content-Length: 2\r\nContent-Length: 2\r\n\r\n", b"Content-Length: 2\n\n", b"Content-Length: -2\r\n\r\n",
                b"Content-Length: 2 2\r\n\r\n", b"Content-Length: 12345678901\r\n\r\n", b"Content-Length\r\n\r\n",
                b"Content-Length:\r\n\r\n", b"Content-Length: 9999999999\r\n\r\n", b"Content-Length: 3\r\n\r\n",
                b"a: b\r\n" * 64 + b"Content-Length: 2\r\n\r\n", b"n:" + b"y" * 255 + b"\r\nContent-Length: 2\r\n\r\n"]
BROKEN_ENDS = [head + b"{}" for head in BROKEN_HEADS] + [b"Content-Length: 2\r\n", b"\xff\xfe", b"C"]


def message_bytes(message):
    return framed(written(message).encode())


class Exchange:
    """The bodies of an exchange, their messages' bytes, the bytes that are sent for each, bytes behind them that are no message, and
    the files that are there."""

    def __init__(self, files):
        self.files = files
        self.server = Server(files.get)
        self.bodies, self.frames, self.sent, self.end = [], [], [], b""

    def give(self, body, frame):
        self.bodies.append(body)
        self.frames.append(frame)
        self.sent.append(b"".join(map(message_bytes, self.server.came(body))))

    def wanted(self):
        """What comes of it."""
        out = b"".join(self.sent)
        if self.server.status is not None:
            return Run(out, b"", self.server.status)
        return Run(out, BAD_HEADER.encode() if self.end else b"", 1)


class Worked(Exchange):
    """These messages."""

    def __init__(self, files, messages):
        super().__init__(files)
        for message in messages:
            body = written({"jsonrpc": "2.0", **message}).encode()
            self.give(body, framed(body))


def too_large():
    """Texts of more bytes than a text may have."""
    return Worked({}, [
        {"id": "i", "method": "initialize", "params": {}},
        _opened("a", "#" * (MAX_BYTES + 1)),
        _changed("a", 2, {"text": "a: 1\n"}),
        _changed("a", 3, _change_at(0, 0, "#" * (MAX_BYTES - 4))),
        _changed("a", 4, _change_at(0, 0, "")),
        _changed("a", 5, {"text": "---\n"}),
        _changed("a", 6, _change_at(1, 0, "\xe9" * (MAX_BYTES // 2 - 1))),
    ])


def limits():
    """Many open documents, a long id, and a body that nests deep."""
    uris = [f"file:///{number}.yaml" for number in range(10_000)]
    exchange = Worked({}, [
        {"id": Number("9" * 10_000), "method": "initialize", "params": {"capabilities": {"general": {"positionEncodings": ["utf-8"]}}}},
        *(_opened(uri, "a:  1") for uri in uris),
        _changed(uris[-1], 2, _change_at(0, 5, "\n")),
        _notification("workspace/didChangeConfiguration", {"settings": {"zutkrad": {"maxProblems": Number("0")}}}),
        *(_notification("textDocument/didClose", {"textDocument": {"uri": uri}}) for uri in uris[::-2]),
    ])
    body = b"[" * 100_000 + b"]" * 100_000
    exchange.give(body, framed(body))
    return exchange


def all_kinds():
    """A message of each kind."""
    a, b = "file:///a.yaml", "file:///b%20c.yaml"
    return Worked({"good": b"extends: default\nrules: {colons: disable}\n"}, [
        {"id": Number("1"), "method": "initialize", "params": {"initializationOptions": {"zutkrad": {"config": "extends: default"}}}},
        _notification("initialized", {}),
        _opened(a, "---\na:  1\nk: [1, 2]\nk: 'x'\n"),
        _opened(b, "- é \n- {a: *b}\n"),
        _changed(a, 2, _change_at(1, 4, "b\nc: \"d\n")),
        _changed(a, 3, _change_at(2, 5, '"'), _change_at(3, 2, "&x |\n  long "), _change_at(9, 0, "\r\n")),
        _changed(b, 4, {"text": "---\nyes:  no\n"}, _change_at(0, 0, "# yamllint disable\n"), _change_at(2, 3, "x")),
        _notification("workspace/didChangeConfiguration", {"settings": {"zutkrad": {"configFile": "good", "maxProblems": Number("1")}}}),
        _changed(a, 5, _change_at(0, 0, "")),
        _opened(a, "a: 1\n"),
        _notification("workspace/didChangeConfiguration", {"settings": {"zutkrad": {"config": "rules: {a: 1}"}}}),
        {"id": "x", "method": "textDocument/hover", "params": {}},
        _notification("textDocument/didClose", {"textDocument": {"uri": b}}),
        {"id": "y", "method": "shutdown"},
        _notification("exit", None),
    ])


def _ran(exchange, number, grants):
    """What comes of an exchange where one body is done with these grants of memory, or with none is dropped, and how many it asks for."""
    files = exchange.files
    server, out, asked = Server(files.get, getattr(files, "folders", no_files)), b"", 0
    for other, body in enumerate(exchange.bodies):
        if other != number:
            messages = server.came(body)
        elif grants is None:
            messages = server.dropped()
        else:
            messages, asked = server.came(body, grants), server.asked
        out += b"".join(map(message_bytes, messages))
        if server.status is not None:
            break
    return Run(out, b"", 1 if server.status is None else server.status), asked


def refused(exchange):
    """What may come of an exchange where one request for memory is refused: for a body, or for a part of its work."""
    for number in range(len(exchange.bodies)):
        yield _ran(exchange, number, None)[0]
        _, asked = _ran(exchange, number, ())
        for part in range(asked):
            yield _ran(exchange, number, [True] * part + [False])[0]


class Random(Exchange):
    """Mostly good messages in a good order."""

    def __init__(self, rng):
        files = {name: _configuration(rng).encode() for name in ("good", "other")}
        super().__init__({**files, "marked": b"\xef\xbb\xbf" + files["good"], "bytes": b"rules: \xff"})
        self.rng, self.style, self.version = rng, _Style(rng), 0
        self.sends_whole = rng.random() < 0.15
        self._send_some((0,) * 9 + (1, 3))
        if rng.random() < 0.95:
            self._send(_initialize(rng))
        if rng.random() < 0.7:
            self._send(_notification("initialized", {}))
        self._send_some((2, 5, 10, 20))
        for method in rng.choice((("shutdown", "exit"), ("shutdown", "exit"), ("exit",), ("shutdown",), ())):
            self._send(_request(rng, method, None) if method == "shutdown" else _notification(method, None))
            if method == "shutdown":
                self._send_some((0, 0, 0, 1, 4))
        if self.server.status is None and rng.random() < 0.15:
            frame = _framed(rng, self.style.written(self._message()).encode())
            self.end = rng.choice((frame[:rng.randrange(1, len(frame))], rng.choice(BROKEN_ENDS)))

    def _send_some(self, counts):
        for _ in range(self.rng.choice(counts)):
            self._send(self._message())

    def _send(self, value):
        """Gives a message, where the server has not ended."""
        rng = self.rng
        if self.server.status is not None:
            return
        if rng.random() < 0.03:
            value = _of_other_shape(rng, value)
        elif isinstance(value, dict) and "params" in value and rng.random() < 0.04:
            value = {**value, "params": _of_other_shape(rng, value["params"])}
        body = self.style.written(value).encode()
        if rng.random() < 0.02:
            body = _broken(rng, body)
        self.give(body, _framed(rng, body))

    # ------------------------------------------------------------- messages

    def _message(self):
        rng, kind = self.rng, self.rng.random()
        is_open = list(self.server.documents)
        if kind < 0.18 or (not is_open and kind < 0.6):
            return _notification("textDocument/didOpen", {"textDocument": self._item()})
        if kind < 0.72:
            uri = rng.choice(is_open) if is_open and rng.random() < 0.97 else rng.choice(URIS)
            version = self._version() if rng.random() < 0.98 else rng.choice(OTHER_VALUES)
            return _notification("textDocument/didChange", {"textDocument": {"uri": uri, "version": version},
                                                            "contentChanges": self._changes(uri)})
        if kind < 0.77:
            return _notification("textDocument/didClose", {"textDocument": {"uri": rng.choice(URIS)}})
        if kind < 0.85:
            return _notification("workspace/didChangeConfiguration", {"settings": _settings(rng)})
        if kind < 0.89:
            return _request(rng, rng.choice(OTHER_REQUESTS), rng.choice((None, {}, [], {"textDocument": {"uri": rng.choice(URIS)}})))
        if kind < 0.93:
            return _notification(rng.choice(OTHER_NOTIFICATIONS), rng.choice((None, {}, [], {"textDocument": {"uri": rng.choice(URIS)}})))
        return rng.choice(OTHERS)(rng)

    def _version(self):
        """Most are greater than the one before."""
        rng, kind = self.rng, self.rng.random()
        if kind < 0.05:
            return Number(rng.choice(NUMBERS))
        self.version = rng.randint(0, self.version) if kind < 0.1 else self.version + 1
        return self.version

    def _item(self):
        item = {"uri": self.rng.choice(URIS), "languageId": "yaml", "version": self._version(), "text": _text(self.rng)}
        return {**item, self.rng.choice(("version", "text")): self.rng.choice(OTHER_VALUES)} if self.rng.random() < 0.08 else item

    def _changes(self, uri):
        """Changes of a document's text, of which most are made with a look at the ones before."""
        rng, changes = self.rng, []
        document = self.server.documents.get(uri, Document(None, "", None, None))
        for _ in range(rng.choice((0, 1, 1, 1, 1, 1, 2, 3, 6))):
            change = self._change(document.text or "")
            changes.append(change)
            if rng.random() < 0.8:
                document = changed(self.server.encoding, document, read(self.style.written(change).encode()))
        return changes

    def _change(self, text):
        rng, kind = self.rng, self.rng.random()
        if kind < (0.03 if text else 0.12):
            return rng.choice(OTHER_VALUES)
        if kind < 0.12:
            return {"text": _text(rng)}
        if self.sends_whole or kind < 0.18:
            return {"text": _near(rng, text)}
        rows = split(text)
        a = rng.randrange(len(rows))
        b = min(a + rng.choice((0, 0, 0, 0, 1, 1, 2, 5)), len(rows) - 1)
        places = [(line, rng.randint(0, units_of(self.server.encoding, rows[line].text) + 1)) for line in (a, b)]
        places.sort(reverse=rng.random() < 0.05)
        if rng.random() < 0.4:
            places[1] = places[0]
        if rng.random() < 0.06:
            places[rng.randrange(2)] = (rng.choice((a, len(rows), 2 ** 32, 2 ** 64 - 1)), rng.choice((0, 2 ** 31, 2 ** 64 - 1)))
        put = _put(rng)
        start, end = ({"line": line, "character": units} for line, units in places)
        change = {"range": {"start": start, "end": end}, "text": put}
        return {**change, "rangeLength": rng.randint(0, 9)} if rng.random() < 0.3 else change


def _opened(uri, text):
    return _notification("textDocument/didOpen", {"textDocument": {"uri": uri, "version": Number("1"), "text": text}})


def _changed(uri, version, *changes):
    document = {"uri": uri, "version": Number(str(version))}
    return _notification("textDocument/didChange", {"textDocument": document, "contentChanges": list(changes)})


def _change_at(line, units, text):
    """The change that puts a text in at a place."""
    place = {"line": Number(str(line)), "character": Number(str(units))}
    return {"range": {"start": place, "end": place}, "text": text}


def _put(rng):
    """What is put in place of something."""
    return rng.choice((*PUT, rng.choice(WIDE), _text(rng)[:rng.randint(0, 20)]))


def _near(rng, text):
    """The text with a few changes, or as it is."""
    for _ in range(rng.choice((0, 1, 1, 1, 2, 3))):
        begin = rng.randint(0, len(text))
        text = text[:begin] + _put(rng) + text[begin + rng.choice((0, 0, 1, 1, 5, 40)):]
    return text


def _text(rng):
    kind = rng.random()
    if kind < 0.01:
        return "---\n" + "a : 1 \n" * rng.choice((500, 501, 700))
    if kind < 0.04:
        return "---\n" + ("k" * rng.randint(254, 260) + ": 1\n") * 2
    text = texts.random_text(rng)
    for _ in range(rng.choice((0, 0, 1, 3, 8))):
        at = rng.randint(0, len(text))
        text = text[:at] + rng.choice(WIDE) + text[at:]
    return text + "long " * rng.choice((20, 100)) if kind < 0.1 else text


def _configuration(rng):
    return rng.choice((texts.random_options, texts.random_options, texts.random_configuration))(rng)


def _settings(rng):
    if rng.random() < 0.15:
        return rng.choice(({}, None, {"zutkrad": None}, {"zutkrad": []}, {"yaml": {}}, {"zutkrad": {}}))
    settings = {}
    if rng.random() < 0.5:
        settings["config"] = rng.choice((*(_configuration(rng) for _ in range(4)), "\ufeff{}", "default", "relaxed", ""))
    if rng.random() < 0.3:
        settings["configFile"] = rng.choice(CONFIG_FILES)
    if rng.random() < 0.4:
        settings["maxProblems"] = rng.choice((0, 1, 2, 3, 5, 1000, 2 ** 64 - 1, Number(rng.choice(NUMBERS))))
    if rng.random() < 0.1:
        settings[rng.choice(("config", "configFile", "maxProblems", "other"))] = rng.choice(OTHER_VALUES)
    return {"zutkrad": settings}


def _initialize(rng):
    capabilities = {}
    if rng.random() < 0.8:
        capabilities["general"] = {"positionEncodings": [rng.choice(ENCODING_NAMES) for _ in range(rng.choice((0, 1, 1, 2, 4)))]}
    if rng.random() < 0.6:
        capabilities["textDocument"] = {"publishDiagnostics": {"codeDescriptionSupport": rng.random() < 0.7, "versionSupport": True}}
    if rng.random() < 0.5:
        capabilities["workspace"] = {"didChangeWatchedFiles": {"dynamicRegistration": rng.choice((True, True, False, "true"))}}
    params = {"processId": rng.choice((None, 1)), "rootUri": "file:///w", "capabilities": capabilities}
    if rng.random() < 0.3:
        params["initializationOptions"] = _settings(rng)
    return _request(rng, "initialize", params)


def _id(rng):
    if rng.random() < 0.01:
        return rng.choice((Number("8" * 10_000), "\xe9" * 10_000))
    return rng.choice((rng.randint(0, 99), "id", 'a "\\\n\xe9\U0001f600\ud800', "", Number("-0"), Number("1.5e3"), Number("9" * 30)))


def _request(rng, method, params):
    message = {"jsonrpc": "2.0", "id": _id(rng), "method": method}
    return message if params is None else {**message, "params": params}


def _notification(method, params):
    return {"jsonrpc": "2.0", "method": method} if params is None else {"jsonrpc": "2.0", "method": method, "params": params}


def _nested(depth):
    value = []
    for _ in range(depth - 1):
        value = [value]
    return value


# Answers, messages that are none, deep ones, and calls in a wrong order.
OTHER_VALUES = [None, True, False, 0, Number("1.5"), "", "x", [], [1], {}, {"text": "x"}, {"line": 0, "character": 0}]
OTHERS = [
    lambda rng: {"jsonrpc": "2.0", "id": _id(rng), "result": None},
    lambda rng: {"jsonrpc": "2.0", "id": None, "error": {"code": 1, "message": "x"}},
    lambda rng: {"jsonrpc": "2.0", "id": _id(rng)},
    lambda rng: {"jsonrpc": rng.choice(("1.0", 2, None)), "id": _id(rng), "method": "shutdown"},
    lambda rng: {"jsonrpc": "2.0", "id": rng.choice((None, [], {}, True)), "method": "shutdown"},
    lambda rng: [_request(rng, "shutdown", None)],
    lambda rng: rng.choice(OTHER_VALUES),
    lambda rng: {"id": _id(rng), "method": "exit"},
    lambda rng: _notification("$/deep", _nested(rng.choice((MOST_OPEN - 1, MOST_OPEN)))),
    _initialize,
    lambda rng: _request(rng, "shutdown", rng.choice((None, {}, []))),
    lambda rng: _notification("exit", rng.choice((None, {}))) if rng.random() < 0.2 else _initialize(rng),
]


def _of_other_shape(rng, value):
    """The value with one of its parts taken out, or another value in its place."""
    if not isinstance(value, (dict, list)) or not value or rng.random() < 0.15:
        return rng.choice(OTHER_VALUES)
    if isinstance(value, list):
        i = rng.randrange(len(value))
        return value[:i] + [_of_other_shape(rng, value[i])] + value[i + 1:]
    name = rng.choice(list(value))
    if rng.random() < 0.2:
        return {other: part for other, part in value.items() if other != name}
    return {**value, name: _of_other_shape(rng, value[name])}


def _broken(rng, body):
    i = rng.randint(0, len(body))
    return rng.choice((body[:i], body[:i] + rng.choice(BREAKERS) + body[i:], body[:i] + body[i + 1:], b"", body + b" x"))


def _framed(rng, body):
    if rng.random() < 0.8:
        return framed(body)
    name = rng.choice((b"Content-Length", b"content-length", b"CONTENT-length"))
    number = b"%0*d" % (rng.choice((1, 10)), len(body))
    length = name + b":" + rng.choice((b"", b" ", b"\t ")) + number + rng.choice((b"", b" \t")) + b"\r\n"
    fields = [length, rng.choice(FIELDS)]
    rng.shuffle(fields)
    return b"".join(fields) + b"\r\n" + body


class _Style:
    """How an editor writes JSON."""

    def __init__(self, rng):
        self.rng = rng
        self.escapes = rng.choice((0, 0, 0, 0.1, 1))
        self.is_ascii = rng.random() < 0.3
        self.has_spaces, self.is_shuffled, self.has_twins = (rng.random() < share for share in (0.2, 0.3, 0.05))

    def space(self):
        return self.rng.choice(("", "", " ", "\n", "\t", " \r\n ")) if self.has_spaces else ""

    def quoted(self, text):
        return '"' + "".join(map(self.char, text)) + '"'

    def char(self, char):
        code = ord(char)
        if 0xD800 <= code < 0xE000 or code < 32 or char in '"\\' or (self.is_ascii and code > 127) or self.rng.random() < self.escapes:
            short = {'"': '\\"', "\\": "\\\\", "/": "\\/", "\n": "\\n", "\t": "\\t", "\r": "\\r", "\b": "\\b", "\f": "\\f"}.get(char)
            if short is not None and self.rng.random() < 0.8:
                return short
            units = [code] if code < 0x10000 else [0xD800 + (code - 0x10000 >> 10), 0xDC00 + (code & 0x3FF)]
            return "".join("\\u" + self.rng.choice(("%04x", "%04X")) % unit for unit in units)
        return char

    def written(self, value):
        return self.space() + self.bare(value) + self.space()

    def bare(self, value):
        if isinstance(value, Number):
            return value.digits
        if isinstance(value, str):
            return self.quoted(value)
        if isinstance(value, list):
            return "[" + (",".join(map(self.written, value)) or self.space()) + "]"
        if isinstance(value, dict):
            names = list(value)
            if self.is_shuffled:
                self.rng.shuffle(names)
            members = [(name, value[name]) for name in names]
            if names and self.has_twins:
                members.insert(0, (self.rng.choice(names), self.rng.choice(OTHER_VALUES)))
            return "{" + (",".join(f"{self.space()}{self.quoted(name)}{self.space()}:{self.written(part)}" for name, part in members)
                          or self.space()) + "}"
        return {None: "null", True: "true", False: "false"}[value] if value is None or isinstance(value, bool) else str(value)
