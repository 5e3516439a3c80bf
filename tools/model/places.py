"""Places and ranges of a text as an editor names them: a line, and a column in the code units of an encoding."""

import re

ENCODINGS = ("utf-8", "utf-16", "utf-32")

MOST_OF_WORD = 256
TO_LINE_END = ("line-length", "trailing-spaces")

_WORD = re.compile(r"[^ \t,\[\]{}]*")


def width(encoding, char):
    if encoding == "utf-8":
        return len(char.encode())
    return 2 if encoding == "utf-16" and ord(char) > 0xFFFF else 1


def units_of(encoding, chars):
    return sum(width(encoding, char) for char in chars)


def column_of(encoding, chars, units):
    """How many characters of a line stand before the place after so many units. Inside a character that is the place before it,
    and past the line's end that end."""
    for column, char in enumerate(chars):
        units -= width(encoding, char)
        if units < 0:
            return column
    return len(chars)


def place_of(encoding, rows, line, units):
    """The line and the column in characters that an editor names. Past the last line it is the text's end."""
    if line >= len(rows):
        return len(rows) - 1, len(rows[-1].text)
    return line, column_of(encoding, rows[line].text, units)


def told(encoding, rows, line, column):
    """The line and the units that an editor is told of a place."""
    return line, units_of(encoding, rows[line].text[:column])


def end_of(rule, chars, column):
    """The column after what a problem of the rule is shown at: the word there without a colon at its end, at least one character,
    or all to the line's end."""
    if rule in TO_LINE_END:
        return len(chars)
    word = _WORD.match(chars[column:column + MOST_OF_WORD])[0]
    return column + max(1, len(word.removesuffix(":")))
