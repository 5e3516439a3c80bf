"""Messages as they come and go: the base protocol, JSON, and what a JSON value is as a message of JSON-RPC.

A JSON value is an object (a dict), a list, a text, True or False, NULL, or a `Number`, which keeps its digits."""

import json
import re
from collections import namedtuple

MOST_FIELDS = 64
MOST_LINE = 257
MOST_OPEN = 128

# LSP's ErrorCodes.
PARSE_ERROR, INVALID_REQUEST, METHOD_NOT_FOUND, INVALID_PARAMS = "-32700", "-32600", "-32601", "-32602"
INTERNAL_ERROR, SERVER_NOT_INITIALIZED = "-32603", "-32002"

Number = namedtuple("Number", "digits")
NULL = type("Null", (), {"__repr__": lambda self: "NULL"})()


class NoJson(Exception):
    """Bytes are no JSON."""


class TooDeep(NoJson):
    """More brackets are open at once in them than are read."""


class NoMessage(Exception):
    """Bytes are neither a message nor the end of all messages."""


# ---------------------------------------------------------------------- JSON

def _constant(word):
    raise ValueError(word)


_quoted = json.encoder.encode_basestring
_DECODER = json.JSONDecoder(parse_int=Number, parse_float=Number, parse_constant=_constant)
_HALF = re.compile("[\ud800-\udfff]")
_TEXT = re.compile(rb'"[^"\\]*(?:\\.[^"\\]*)*"?', re.DOTALL)


def _is_too_deep(body):
    """Whether more brackets are open at once than are read, those in texts aside."""
    is_open = 0
    for byte in _TEXT.sub(b"", body):
        if byte in b"[{":
            is_open += 1
        elif byte in b"]}":
            is_open = max(is_open - 1, 0)
        if is_open > MOST_OPEN:
            return True
    return False


def _taken(value):
    """A value as Python's decoder has it, in this module's form."""
    if value is None:
        return NULL
    if isinstance(value, str):
        return _HALF.sub("\ufffd", value)
    if isinstance(value, dict):
        return {_taken(name): _taken(item) for name, item in value.items()}
    return list(map(_taken, value)) if isinstance(value, list) else value


def read(body):
    """The value of a body. An escape of half a pair of surrogates without the other is read as U+FFFD. The last of equal names
    counts."""
    if _is_too_deep(body):
        raise TooDeep
    try:
        return _taken(_DECODER.decode(body.decode()))
    except ValueError:
        raise NoJson from None


def written(value):
    """The text of a value: no spaces, the shortest escapes, and members in the order of their names."""
    if value is NULL:
        return "null"
    if isinstance(value, bool):
        return "true" if value else "false"
    if isinstance(value, Number):
        return value.digits
    if isinstance(value, dict):
        return "{" + ",".join(f"{written(name)}:{written(value[name])}" for name in sorted(value)) + "}"
    if isinstance(value, list):
        return "[" + ",".join(map(written, value)) + "]"
    return _quoted(value)


def member(value, *names):
    """The member of an object's member, and so on, or None."""
    for name in names:
        value = value.get(name) if isinstance(value, dict) else None
    return value


# --------------------------------------------------------- the base protocol

_LENGTH = re.compile(rb"[ \t]*([0-9]{1,10})[ \t]*")


def _length_of(fields):
    """The length that the fields of a header say."""
    lengths = []
    for field in fields:
        name, colon, value = field.partition(b":")
        if not colon:
            raise NoMessage
        if name.lower() == b"content-length":
            found = _LENGTH.fullmatch(value)
            if found is None:
                raise NoMessage
            lengths.append(int(found[1]))
    if len(lengths) != 1:
        raise NoMessage
    return lengths[0]


def header(data):
    """The length that the header at the front of the bytes says, and what follows the header."""
    fields = []
    while len(fields) <= MOST_FIELDS:
        end = data.find(b"\n", 0, MOST_LINE + 1)
        line, data = data[:max(end, 0)], data[end + 1:]
        if end < 0 or not line.endswith(b"\r"):
            raise NoMessage
        if line == b"\r":
            return _length_of(fields), data
        fields.append(line[:-1])
    raise NoMessage


def next_body(data):
    """The body of the message that the bytes begin with, and what follows it; None at the end."""
    if not data:
        return None
    length, data = header(data)
    if length > len(data):
        raise NoMessage
    return data[:length], data[length:]


def framed(body):
    return b"Content-Length: %d\r\n\r\n" % len(body) + body


# ------------------------------------------------------------------ JSON-RPC

Request = namedtuple("Request", "id method params")
Notification = namedtuple("Notification", "method params")
Response = namedtuple("Response", "")
Invalid = namedtuple("Invalid", "id")


def _id(value):
    return value if isinstance(value, (str, Number)) else NULL


def call_of(value):
    """What a value is as a message. The params are None where it has none."""
    method, params = member(value, "method"), member(value, "params")
    invalid = Invalid(_id(member(value, "id")))
    if member(value, "jsonrpc") != "2.0":
        return invalid
    if method is None:
        is_answer = member(value, "result") is not None or member(value, "error") is not None
        return Response() if is_answer else invalid
    if not isinstance(method, str):
        return invalid
    if member(value, "id") is None:
        return Notification(method, params)
    return invalid if invalid.id is NULL else Request(invalid.id, method, params)


def answer(id_, result):
    return {"jsonrpc": "2.0", "id": id_, "result": result}


def failure(id_, code, message):
    return {"jsonrpc": "2.0", "id": id_, "error": {"code": Number(code), "message": message}}


def notification(method, params):
    return {"jsonrpc": "2.0", "method": method, "params": params}
