"""Patterns of paths, one a line, in the manner of gitignore. The last one that a path fits decides."""

ANY = "**"
STAR = ("*",)


class BadPattern(Exception):
    """A line is no pattern."""


def pattern_of(line):
    """Whether a line takes back, and the parts of its pattern; None where it says nothing."""
    text = line.strip()
    if not text or text.startswith("#") or text == "/":
        return None
    takes_back = text.startswith("!")
    parts = []
    for part in (text[1:] if takes_back else text).split("/"):
        if not (part == ANY and parts[-1:] == [ANY]):
            parts.append(part)
    is_anchored = parts[0] == ""
    if is_anchored:
        parts = parts[1:]
    if not parts:
        raise BadPattern(line)
    if parts == [ANY, ""]:
        return takes_back, [ANY, [STAR], ANY]
    if not is_anchored and parts[1:] in ([], [""]):
        parts = [ANY, *parts]
    if parts[-1] == "" and len(parts) > 1:
        parts[-1] = ANY
    return takes_back, [part if part == ANY else items_of(part) for part in parts]


def items_of(part):
    """The items of a part: a character, any run, any one, or one of a class."""
    items, at = [], 0
    while at < len(part):
        char = part[at]
        at += 1
        if char == "\\":
            if at == len(part):
                raise BadPattern(part)
            items.append(("=", part[at]))
            at += 1
        elif char in "*?":
            items.append((char,))
        elif char == "[":
            is_negated = part[at:at + 1] == "!"
            begin = at + is_negated
            end = part.find("]", begin + (part[begin:begin + 1] == "]"))
            if end < 0:
                items.append(("=", "["))
            else:
                items.append(("[", is_negated, ranges_of(part[begin:end])))
                at = end + 1
        else:
            items.append(("=", char))
    return items


def ranges_of(body):
    ranges, at = [], 0
    while at < len(body):
        last = at + 2 if at + 2 < len(body) and body[at + 1] == "-" else at
        if body[last] < body[at]:
            raise BadPattern(body)
        ranges.append((body[at], body[last]))
        at = last + 1
    return ranges


def stands_for(item, char):
    if item[0] == "=":
        return item[1] == char
    return item[0] == "?" or any(first <= char <= last for first, last in item[2]) != item[1]


def behind_stars(items, places):
    """The places of the items, and those that are reached from them by runs of no character."""
    more = set()
    for place in places:
        while place not in more:
            more.add(place)
            place += place < len(items) and items[place] == STAR
    return more


def name_fits(items, name):
    places = behind_stars(items, {0})
    for char in name:
        places = behind_stars(items, {place if items[place] == STAR else place + 1
                                      for place in places if place < len(items) and (items[place] == STAR or stands_for(items[place], char))})
    return len(items) in places


def path_fits(parts, names):
    """Whether names fit parts, by the sets of the names from which on a part is looked at."""
    starts = {0}
    for at, part in enumerate(parts):
        if part == ANY:
            first = min(starts, default=len(names) + 1)
            starts = set(range(first, len(names) + 1))
            if at == len(parts) - 1:
                return first < len(names)
        else:
            starts = {start + 1 for start in starts if start < len(names) and name_fits(part, names[start])}
    return bool(starts)


def is_among(lines, path):
    """Whether a path is among the patterns of these lines."""
    patterns = [pattern for pattern in map(pattern_of, lines) if pattern]
    for takes_back, parts in reversed(patterns):
        if path_fits(parts, path.split("/")):
            return not takes_back
    return False
