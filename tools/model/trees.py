"""Random trees of files, project configurations, and paths as words of `zutkrad check`."""

import json
import os
import re
from collections import namedtuple

# An entry of a tree: the path below the tree's folder, one of these kinds, and a file's bytes or where a link leads.
Entry = namedtuple("Entry", "path kind data", defaults=(b"",))
FOLDER, FILE, LINK, PIPE, SOCKET = "folder", "file", "link", "pipe", "socket"

NAMES = ["a", "b", "c", "ab", "a b", "[a]", "a[b]c", "#a", "!a", "é", "日本", ".a", "a*", "a?", "b\\", "a]", "{a}", "a'b", "a,b", "a:b"]
ENDS = [".yaml"] * 5 + [".yml"] * 2 + ["", ".txt", ".yaml.txt", ".YAML", ".json", "x.yaml"]
TEXTS = [
    b"---\na: 1\n",
    b"a: 1\n",
    b"---\na:  1 \n",
    b"---\n\n\n\na: [1,2 ,  3]\n",
    b"---\na: 1\na: 2\nb: yes\n",
    b"---\nb: {  a: 1}\n# c\n#c\nk: 'v' # d\n",
    b"---\na: a line that is too long, with words that go on and on, past its last column and on\n",
    # yamllint itself fails where a sequence comes before the width of indentation is known.
    b"---\nb:\n    c: 1\na:\n- 1\n-  2\n",
    b"---\na: [1\n",
    b"---\na: 1",
    b"# yamllint disable rule:colons\n---\na:  1\nb: 1 \n",
    "---\né:  日本 \n".encode(),
    b"",
]
BAD_TEXT = b"---\na: \xc3("
# What turns a path into a pattern that it fits or nearly fits.
SOUP = ["a", "b", "c", "/", "/", "*", "**", "**/", "/**", "?", "!", "[", "]", "[!", "[a-b]", "\\", ".", "-", "#", " ", ".yaml", "é"]
SPECIAL = re.compile(r"([\\*?\[\]!# ])")
CLASSES = ["?", "*", "[a-c]", "[!b]", "[]a]", "[!]x]", "[.-/]"]
# A rule, and what is said of it: that it is on or off, or its options.
RULES = [
    ("braces", "disable"), ("brackets", ["max-spaces-inside: 1"]), ("colons", "disable"), ("colons", ["max-spaces-after: 2"]),
    ("commas", "enable"), ("comments", ["require-starting-space: false"]), ("comments", ["level: error"]), ("document-start", "disable"),
    ("document-start", ["present: false"]), ("document-start", ["level: error"]), ("empty-lines", ["max: 0", "level: warning"]),
    ("hyphens", ["level: warning"]), ("indentation", ["spaces: 2", "indent-sequences: whatever"]), ("key-duplicates", "enable"),
    ("key-ordering", ["level: warning"]), ("line-length", ["max: 40"]), ("line-length", "disable"),
    ("new-line-at-end-of-file", "enable"), ("trailing-spaces", ["level: warning"]), ("trailing-spaces", []),
    ("truthy", ["allowed-values: ['yes', 'no']"]), ("truthy", "enable"), ("truthy", []), ("comments-indentation", "disable"),
    ("empty-values", "enable"),
]
PLAIN = re.compile(r"[A-Za-z./][A-Za-z./_-]*")
NOT_A_TEXT = {"yes", "no", "on", "off", "true", "false", "null", "y", "n", ".inf", ".nan"}


def random_tree(rng):
    """Folders, files, links, pipes and sockets, each after the folder in which it lies."""
    entries, folders = [], [""]
    for _ in range(rng.randint(1, 24)):
        folder = rng.choice(folders)
        roll = rng.random()
        name = rng.choice(NAMES) + ("" if roll < 0.25 and rng.random() < 0.8 else rng.choice(ENDS))
        # At the top it would be the configuration.
        path = os.path.join(folder, ".yamllint" if folder and rng.random() < 0.05 else name)
        if any(entry.path == path for entry in entries):
            continue
        if roll < 0.25 and path.count("/") < 3:
            folders.append(path)
            entries.append(Entry(path, FOLDER))
        elif roll < 0.33:
            entries.append(Entry(path, LINK, _random_target(rng, path, entries)))
        elif roll < 0.37:
            entries.append(Entry(path, rng.choice((PIPE, SOCKET))))
        else:
            entries.append(Entry(path, FILE, BAD_TEXT if rng.random() < 0.03 else rng.choice(TEXTS)))
    return entries


def _random_target(rng, path, entries):
    """Where a link leads: to an entry, to nothing, or to itself."""
    targets = [entry.path for entry in entries] + ["nothing", path]
    return os.path.relpath(rng.choice(targets), os.path.dirname(path) or ".")


# ------------------------------------------------------------------- patterns

def _random_part(rng, name):
    """A part of a pattern, by the name of a file or a folder."""
    part = SPECIAL.sub(r"\\\1", name) if rng.random() < 0.7 else name
    roll = rng.random()
    if roll < 0.2:
        return "*" + os.path.splitext(part)[1]
    if roll < 0.35 and part:
        at = rng.randrange(len(part))
        return part[:at] + rng.choice(CLASSES) + part[at + 1:]
    if roll < 0.4:
        return "**"
    return part


def random_pattern(rng, tree):
    """A line of patterns: of the path of an entry, or of anything."""
    if rng.random() < 0.25 or not tree:
        line = "".join(rng.choice(SOUP) for _ in range(rng.randint(1, 6)))
        return line if rng.random() < 0.5 else line.replace("\\", "")
    parts = [_random_part(rng, name) for name in rng.choice(tree).path.split("/")]
    line = "/".join(parts[rng.randrange(len(parts)):] if rng.random() < 0.5 else parts)
    if rng.random() < 0.15:
        # What stands for characters of a name stands for no `/`.
        line = line.replace("/", rng.choice(CLASSES), 1)
    return rng.choice(["", "", "", "", "!", "/", "**/", "# ", " "]) + line + rng.choice(["", "", "", "/", "/*", "/**", " "])


def random_patterns(rng, tree, most):
    return [random_pattern(rng, tree) for _ in range(rng.randint(0 if rng.random() < 0.2 else 1, most))]


# ------------------------------------------------------------- configurations

def _scalar(rng, text):
    """A text as a scalar, plain where that is the same text to each reader."""
    roll = rng.random()
    if roll < 0.3 and PLAIN.fullmatch(text) and text.lower() not in NOT_A_TEXT:
        return text
    return "'" + text.replace("'", "''") + "'" if roll < 0.7 else json.dumps(text, ensure_ascii=False)


def _listed(rng, texts):
    return "[" + ", ".join(_scalar(rng, text) for text in texts) + "]"


def _ignore(rng, lines, indentation):
    """The value of `ignore`: a block scalar, a quoted text with a pattern in each line, or a list."""
    roll = rng.random()
    stripped = [line.strip() for line in lines if line.strip()]
    if roll < 0.4 and stripped:
        return "".join([rng.choice(["|", "|-", "|+"]), *("\n" + " " * indentation + line for line in stripped)])
    if roll < 0.6:
        return json.dumps("\n".join(lines), ensure_ascii=False)
    if roll < 0.8 and lines:
        return "".join("\n" + " " * indentation + "- " + _scalar(rng, line) for line in lines)
    return _listed(rng, lines)


def _random_rules(rng, tree):
    lines, named = [], set()
    for rule, said in rng.sample(RULES, rng.randint(1, 5)):
        if rule in named:
            continue
        named.add(rule)
        if isinstance(said, str):
            lines.append(f"  {rule}: {said}")
        elif rng.random() < 0.4:
            lines.append(f"  {rule}: {{{', '.join(said)}}}")
        else:
            ignored = f"ignore: {_ignore(rng, random_patterns(rng, tree, 3), 6)}"
            lines += [f"  {rule}:", *(f"    {option}" for option in rng.sample([*said, ignored], len(said) + 1))]
    return "\n".join(["rules:", *lines])


def random_configuration(rng, tree, extended, names):
    """A configuration, where files of these names may be extended, and such files have patterns."""
    entries = []
    roll = rng.random()
    if roll < 0.5:
        entries.append("extends: default")
    elif roll < 0.65:
        entries.append("extends: relaxed")
    elif roll < 0.95 and extended:
        entries.append(f"extends: {_scalar(rng, rng.choice(extended))}")
    if rng.random() < 0.7:
        entries.append(_random_rules(rng, tree))
    roll = rng.random()
    if roll < 0.5:
        entries.append(f"ignore: {_ignore(rng, random_patterns(rng, tree, 4), 2)}")
    elif roll < 0.65 and names:
        chosen = rng.sample(names, rng.randint(1, len(names)))
        entries.append(f"ignore-from-file: {_listed(rng, chosen) if len(chosen) > 1 or rng.random() < 0.5 else chosen[0]}")
    if rng.random() < 0.3:
        patterns = random_patterns(rng, tree, 2) + rng.choice([["*.yaml"], ["*"], ["*.y*ml", "!a*"], ["*.txt"], []])
        entries.append(f"yaml-files: {_listed(rng, patterns)}")
    if rng.random() < 0.1:
        entries.append("locale: C.UTF-8")
    rng.shuffle(entries)
    return "---\n" + "\n".join(entries or ["rules: {}"]) + "\n"


class Project:
    """A tree with the files of its configuration, and the words that name the configuration."""

    def __init__(self, rng):
        self.tree = random_tree(rng)
        # They lie outside of the tree, for they are no YAML.
        patterns = [f"../patterns{i}" for i in range(rng.randint(0, 2))]
        lines = {name: "\n".join(random_patterns(rng, self.tree, 4)) + rng.choice(["", "\n"]) for name in patterns}
        texts = {}
        for name in [f"conf/base{i}" for i in range(rng.choice((0, 0, 1, 2)))] + ["first"]:
            texts[name] = random_configuration(rng, self.tree, list(texts), patterns)
        self.config = texts.pop("first")
        roll = rng.random()
        if roll < 0.6:
            self.words, self.name = [], rng.choice([".yamllint", ".yamllint", ".yamllint.yaml", ".yamllint.yml"])
        elif roll < 0.8:
            self.words, self.name = ["-c", "conf/first"], "conf/first"
        else:
            self.words, self.name = ["-d", rng.choice([self.config, self.config, self.config, "default", "relaxed", ""])], None
        named = {} if self.name is None else {self.name: self.config}
        self.tree.append(Entry("conf", FOLDER))
        self.tree += [Entry(name, FILE, text.encode()) for name, text in {**lines, **texts, **named}.items()
                      if all(entry.path != name for entry in self.tree)]

    def random_paths(self, rng, folder):
        """Words that are paths, some of them from the root: `folder` is the one in which the tree lies."""
        paths = []
        for _ in range(rng.choice((0, 1, 1, 1, 2, 3))):
            entry = rng.choice([entry for entry in self.tree if entry.kind not in (PIPE, SOCKET) and not entry.path.startswith("..")])
            path = rng.choice([".", ".", ".", "./", entry.path, entry.path, "./" + entry.path, entry.path + "/",
                               os.path.join(folder, entry.path), f"{entry.path}/../{os.path.basename(entry.path)}"])
            # What is named is opened, and a pipe has no writer.
            if not path.startswith("-") and not _is_other(os.path.join(folder, path)):
                paths.append(path)
        return paths


def _is_other(path):
    return os.path.exists(path) and not os.path.isfile(path) and not os.path.isdir(path)


def make(folder, tree):
    """Makes the files of a tree."""
    for entry in tree:
        path = os.path.join(folder, entry.path)
        os.makedirs(os.path.dirname(path), exist_ok=True)
        if entry.kind == FOLDER:
            os.makedirs(path, exist_ok=True)
        elif entry.kind == LINK:
            os.symlink(entry.data, path)
        elif entry.kind == PIPE:
            os.mkfifo(path)
        elif entry.kind == SOCKET:
            os.mknod(path, 0o140600)
        else:
            with open(path, "wb") as file:
                file.write(entry.data)
