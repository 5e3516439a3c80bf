#!/usr/bin/env python3
"""stand_in.py: serves an editor over standard input and output as `zutkrad server` does, by the model of tools/model.

It is there to try tools that talk to a server while the program is not built. It is slow: each text is linted anew."""

import os
import sys

HERE = os.path.dirname(os.path.abspath(__file__))
sys.path.insert(0, HERE)

from model.exchanges import message_bytes  # noqa: E402
from model.server import BAD_HEADER, Server  # noqa: E402
from model.wire import NoMessage, header  # noqa: E402

def file_bytes(name):
    """The bytes of a file, or None."""
    try:
        with open(name, "rb") as file:
            return file.read()
    except (OSError, ValueError):
        return None


def bodies(file):
    """The bodies that come, each as soon as it is there."""
    while head := file.readline():
        while not head.endswith(b"\r\n\r\n") and head != b"\r\n":
            line = file.readline()
            if not line:
                break
            head += line
        length, _ = header(head)
        body = file.read(length)
        if len(body) < length:
            raise NoMessage
        yield body


def main():
    server = Server(file_bytes)
    try:
        for body in bodies(sys.stdin.buffer):
            for message in server.came(body):
                sys.stdout.buffer.write(message_bytes(message))
            sys.stdout.buffer.flush()
            if server.status is not None:
                return server.status
    except NoMessage:
        sys.stderr.write(BAD_HEADER)
    return 1


if __name__ == "__main__":
    sys.exit(main())
