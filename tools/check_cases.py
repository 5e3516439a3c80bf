"""Input of `zutkrad check` with faults, and what has to come of it, byte for byte; for tools/compare_check."""

import os
import shutil
from collections import namedtuple

from model import trees
from model.trees import Entry

Link = namedtuple("Link", "target")
# A file, or a folder, that its owner alone may read, who is another one.
Shut = namedtuple("Shut", "data")
FOLDER, PIPE, SOCKET, LARGE = trees.FOLDER, trees.PIPE, trees.SOCKET, "large"
MOST_BYTES = 64 * 1024 * 1024

# A run: its words, the files of the folder in which it runs, or of one above, what is to come on standard output, on standard error and
# as status, what it is given on standard input, and whether another user runs it than the one whose files these are.
Case = namedtuple("Case", "words files out err status given folder as_other", defaults=("", "", 0, b"", "", False))

START = b"a: 1\n"
NO_START = '{}:1:1: [warning] missing document start "---" (document-start)\n'.format
USE = "zutkrad: fault of use\n"
PARSABLE = ["-f", "parsable"]


def case(words, files, out="", err="", status=0, **more):
    """A run with the parsable format."""
    return Case(PARSABLE + words, files, out, err, status, **more)


def chain(count):
    """Configurations that each extend the next one, the last one `default`."""
    return {"f.yaml": START, **{f"c{i}": f"extends: {f'c{i + 1}' if i < count else 'default'}\n".encode() for i in range(1, count + 1)}}


def too_long(name):
    return f"zutkrad: {name}: configuration: more than 64 extend each other\n"


# What the words ask for.
WORDS = [
    case([], {"f.yaml": START}, NO_START("./f.yaml")),
    case(["f.yaml", "f.yaml"], {"f.yaml": START}, 2 * NO_START("f.yaml")),
    case(["-s", "f.yaml"], {"f.yaml": START}, NO_START("f.yaml"), status=2),
    case(["--strict", "--no-warnings", "f.yaml"], {"f.yaml": START}, status=2),
    case(["-s", "f.yaml", "g.yaml"], {"f.yaml": START, "g.yaml": b"---\na:  1\n"},
         NO_START("f.yaml") + "g.yaml:2:4: [error] too many spaces after colon (colons)\n", status=1),
    case(["-"], {}, NO_START("stdin"), given=START),
    case(["f.yaml", "-", "f.yaml", "-"], {"f.yaml": START}, NO_START("f.yaml") + NO_START("stdin") + NO_START("f.yaml"),
         given=START),
    case(["--list-files", "-", "."], {"f.yaml": START}, "./f.yaml\n", given=START),
    case(["--", "-f.yaml"], {"-f.yaml": START}, NO_START("-f.yaml")),
    case(["-d", "relaxed", "f.yaml"], {"f.yaml": START}),
    case(["--config-data", "rules: {document-start: enable}", "f.yaml"], {"f.yaml": START}, NO_START("f.yaml").replace("warning", "error"),
         status=1),
    case(["--config-file", "c", "f.yaml"], {"f.yaml": START, "c": b"\xef\xbb\xbfextends: default\n"}, NO_START("f.yaml")),
    # Order.
    case(["--list-files", "b", "."], {name: START for name in ("b/z.yaml", "b/a/c.yml", "a.yaml", "B.yaml", "é.yaml", "a/b.yaml", "a.d/b.yaml")},
         "b/z.yaml\nb/a/c.yml\n./B.yaml\n./a.yaml\n./é.yaml\n./a/b.yaml\n./a.d/b.yaml\n./b/z.yaml\n./b/a/c.yml\n"),
    # Wrong words.
    Case(["-f", "other", "f.yaml"], {"f.yaml": START}, err=USE, status=255),
    Case(["--format"], {}, err=USE, status=255),
    Case(["-c", "c", "-c", "c"], {"c": b"rules: {}\n"}, err=USE, status=255),
    Case(["-c", "c", "-d", "default"], {"c": b"rules: {}\n"}, err=USE, status=255),
    Case(["--strikt"], {}, err=USE, status=255),
    Case([b"\xff.yaml"], {b"\xff.yaml": START}, err=USE, status=255),
]

# Files that cannot be linted: the run goes on.
FILES = [
    case(["none.yaml", "f.yaml"], {"f.yaml": START}, NO_START("f.yaml"), "zutkrad: none.yaml: cannot be read\n", 255),
    case(["f.yaml/", "f.yaml"], {"f.yaml": START}, NO_START("f.yaml"), "zutkrad: f.yaml/: cannot be read\n", 255),
    case(["."], {"a.yaml": Link("none"), "f.yaml": START}, NO_START("./f.yaml"), "zutkrad: ./a.yaml: cannot be read\n", 255),
    case(["."], {"a.yaml": Link("a.yaml"), "f.yaml": START}, NO_START("./f.yaml"), "zutkrad: ./a.yaml: cannot be read\n", 255),
    case(["--list-files", "."], {"a.yaml": Link("none"), "f.yaml": START}, "./a.yaml\n./f.yaml\n"),
    case(["."], {"a.yaml": b"a: \xc3", "f.yaml": START}, NO_START("./f.yaml"), "zutkrad: ./a.yaml: not UTF-8 at byte 3\n", 255),
    case(["."], {"a.yaml": b"a: \xc3", "b.yaml": LARGE, "f.yaml": b"---\na:  1\n"},
         "./f.yaml:2:4: [error] too many spaces after colon (colons)\n",
         "zutkrad: ./a.yaml: not UTF-8 at byte 3\nzutkrad: ./b.yaml: too large\n", 255),
    case(["-", "f.yaml"], {"f.yaml": START}, NO_START("f.yaml"), "zutkrad: stdin: not UTF-8 at byte 0\n", 255, given=b"\xff"),
    case(["."], {"a.yaml": PIPE, "b.yaml": SOCKET, "c.yaml": Link("a.yaml"), "d.yaml": FOLDER, "d.yaml/f.yaml": START},
         NO_START("./d.yaml/f.yaml")),
    # What is ignored is not opened.
    case(["-d", "{extends: default, ignore: a.yaml}", ".", "a.yaml"], {"a.yaml": Link("none"), "f.yaml": START}, NO_START("./f.yaml")),
    case(["-d", "{extends: default, ignore: a.yaml}", "a.yaml"], {"a.yaml": b"\xff"}),
    # Patterns: what stands for characters of a name stands for no `/`, and `/**/` is what lies in some folder.
    case(["--list-files", "-d", "ignore: ['a[!b]c.yaml', 'a?c.yaml', 'a*c.yaml']", "."], {"a/c.yaml": START, "axc.yaml": START},
         "./a/c.yaml\n"),
    case(["--list-files", "-d", "ignore: /**/", "."], {"a/c.yaml": START, "f.yaml": START}, "./f.yaml\n"),
    # Links to folders.
    case(["--list-files", "."], {"a/f.yaml": START, "b": Link("a")}, "./a/f.yaml\n"),
    case(["--list-files", "b", "b/"], {"a/f.yaml": START, "b": Link("a")}, "b/f.yaml\nb/f.yaml\n"),
    case(["--list-files", "a"], {"a/f.yaml": START, "a/up": Link(".."), "a/it": Link("../a")}, "a/f.yaml\n"),
    # Names that are no UTF-8.
    case(["."], {b"\xff.yaml": START, "f.yaml": START}, NO_START("./f.yaml"), "zutkrad: .: a name is not UTF-8\n", 255),
    case(["--list-files", "."], {b"\xff.yaml": START, "f.yaml": START}, "./f.yaml\n", "zutkrad: .: a name is not UTF-8\n", 255),
    case(["."], {b"a/\xff/f.yaml": START, "f.yaml": START}, NO_START("./f.yaml"), "zutkrad: ./a: a name is not UTF-8\n", 255),
    # Files and folders of another user.
    case(["."], {"a": Shut(None), "b.yaml": Shut(START), "f.yaml": START}, NO_START("./f.yaml"),
         "zutkrad: ./b.yaml: cannot be read\nzutkrad: ./a: cannot be read\n", 255, as_other=True),
    case(["--list-files", "."], {"a": Shut(None), "b.yaml": Shut(START), "f.yaml": START}, "./b.yaml\n./f.yaml\n",
         "zutkrad: ./a: cannot be read\n", 255, as_other=True),
    case(["a/f.yaml", "a", "f.yaml"], {"a": Shut(None), "f.yaml": START}, NO_START("f.yaml"),
         "zutkrad: a/f.yaml: cannot be read\nzutkrad: a: cannot be read\n", 255, as_other=True),
    case(["f.yaml"], {"f.yaml": START, ".yamllint": Shut(b"rules: {}\n")}, err="zutkrad: .yamllint: cannot be read\n", status=255,
         as_other=True),
]

# Configurations in other files.
EXTENDED = [
    case(["-c", "c1", "f.yaml"], chain(64), NO_START("f.yaml")),
    case(["-c", "c1", "f.yaml"], chain(65), err=too_long("c65"), status=255),
    case(["-d", "extends: c1", "f.yaml"], chain(63), NO_START("f.yaml")),
    case(["-d", "extends: c1", "f.yaml"], chain(64), err=too_long("c64"), status=255),
    case(["-c", "a", "f.yaml"], {"f.yaml": START, "a": b"extends: b\n", "b": b"extends: a\n"}, err=too_long("a"), status=255),
    case(["-c", "a", "f.yaml"], {"f.yaml": START, "a": b"extends: a\n"}, err=too_long("a"), status=255),
    case(["-d", "extends: none", "f.yaml"], {"f.yaml": START}, err="zutkrad: none: cannot be read\n", status=255),
    case(["-d", "extends: a", "f.yaml"], {"f.yaml": START, "a": FOLDER}, err="zutkrad: a: cannot be read\n", status=255),
    case(["-d", "extends: a", "f.yaml"], {"f.yaml": START, "a": b"keys: 1\n"}, err="zutkrad: a: configuration: UnknownKey at 1:1\n",
         status=255),
    case(["-d", "extends: a", "f.yaml"], {"f.yaml": START, "a": b"rules: [\n"}, err="zutkrad: a: configuration: Syntax at 2:1\n", status=255),
    # Paths in a configuration are taken from the working folder, wherever it lies.
    case(["-c", "a/b", "f.yaml"], {"f.yaml": START, "a/b": b"extends: c\n", "a/c": b"keys: 1\n", "c": b"extends: default\n"},
         NO_START("f.yaml")),
    case(["-c", "none", "f.yaml"], {"f.yaml": START}, err="zutkrad: none: cannot be read\n", status=255),
    case(["-c", "a", "f.yaml"], {"f.yaml": START, "a": b"rules: \xff\n"}, err="zutkrad: a: configuration: NotUtf8\n", status=255),
    case(["-c", "a", "f.yaml"], {"f.yaml": START, "a": LARGE}, err="zutkrad: a: configuration: TooLarge\n", status=255),
    case(["."], {"f.yaml": START, ".yamllint": b"keys: 1\n"}, err="zutkrad: .yamllint: configuration: UnknownKey at 1:1\n", status=255),
    case(["."], {"a/b/f.yaml": START, ".yamllint": b"keys: 1\n"}, err="zutkrad: ../../.yamllint: configuration: UnknownKey at 1:1\n",
         status=255, folder="a/b"),
    # Files with patterns.
    case(["-d", "{extends: default, ignore-from-file: [p, q]}", "."], {"a.yaml": START, "b.yaml": START, "f.yaml": START, "p": b"a.yaml",
                                                                    "q": b"# b\r\nb.*\r\n"}, NO_START("./f.yaml")),
    case(["-d", "ignore-from-file: none", "f.yaml"], {"f.yaml": START}, err="zutkrad: none: cannot be read\n", status=255),
    case(["-d", "ignore-from-file: p", "f.yaml"], {"f.yaml": START, "p": b"\xff\n"}, err="zutkrad: p: configuration: NotUtf8\n", status=255),
    case(["-d", "ignore-from-file: p", "f.yaml"], {"f.yaml": START, "p": b"a\n!\n"}, err="zutkrad: configuration: BadValue at 1:19\n",
         status=255),
]

# Texts of configurations, and what is told of each.
REFUSED = [
    ("", "NotAMapping at 1:1"),
    ("- a: 1\n", "NotAMapping at 1:1"),
    ("rules: {}\n---\nrules: {}\n", "NotAMapping at 2:1"),
    ("rules: [\n", "Syntax at 2:1"),
    ("keys: 1\n", "UnknownKey at 1:1"),
    ("rules: []\n", "BadValue at 1:8"),
    ("rules:\n", "BadValue at 1:1"),
    ("rules: {truth: enable}\n", "UnknownRule at 1:9"),
    ("rules: {truthy: 1}\n", "BadValue at 1:17"),
    ("rules: {truthy: {level: info}}\n", "BadLevel at 1:25"),
    ("rules: {truthy: {keys: 1}}\n", "UnknownOption at 1:18"),
    ("rules: {line-length: {max: x}}\n", "BadValue at 1:28"),
    ("rules: {truthy: {ignore: '!'}}\n", "BadValue at 1:26"),
    ("rules: {truthy: {ignore: [a, '!']}}\n", "BadValue at 1:30"),
    ("rules: {truthy: {ignore: {}}}\n", "BadValue at 1:26"),
    ("extends: ''\n", "UnknownExtends at 1:10"),
    ("extends: [default]\n", "UnknownExtends at 1:10"),
    ("extends:\n", "UnknownExtends at 1:1"),
    ("ignore:\n", "BadValue at 1:1"),
    ("ignore: {a: b}\n", "BadValue at 1:9"),
    ("ignore: [a, [b]]\n", "BadValue at 1:13"),
    ("ignore: [&x a, *x]\n", "BadValue at 1:16"),
    ("ignore: '!'\n", "BadValue at 1:9"),
    ("ignore: |\n  a\n  b\\\n", "BadValue at 1:9"),
    ("ignore:\n  - a\n  - '[b-a]'\n", "BadValue at 3:5"),
    ("ignore: a\nignore-from-file: p\n", "BadValue at 2:1"),
    ("ignore-from-file: p\nignore: a\n", "BadValue at 2:1"),
    ("ignore-from-file: {p: q}\n", "BadValue at 1:19"),
    ("ignore-from-file: [p, [q]]\n", "BadValue at 1:23"),
    ("ignore-from-file: ''\n", "BadValue at 1:19"),
    ("yaml-files: a: b\n", "Syntax at 1:14"),
    ("yaml-files: '*.yaml'\n", "BadValue at 1:13"),
    ("yaml-files: ['!']\n", "BadValue at 1:14"),
    ("yaml-files: [{a: b}]\n", "BadValue at 1:14"),
    ("locale: [C]\n", "BadValue at 1:9"),
    ("keys: 1\nrules: {truth: enable}\n", "UnknownKey at 1:1"),
]

# Texts that are taken: of `f.yaml` the rule document-start tells nothing under them.
TAKEN = [
    "rules: {}\n", "ignore: 5\n", "ignore: yes\n", "ignore: []\n", "yaml-files: []\n", "yaml-files: [5]\n", "locale: 5\n",
    "ignore-from-file: p\n", "rules: {truthy: {ignore-from-file: {}}}\n", "rules: {empty-values: {ignore: '!'}}\n",
    "ignore: ['!a', '']\nignore: [b]\n", "...\n---\nrules: {}\n", "{extends: default, ignore: f.yaml}\n",
    "{extends: default, ignore: ['*', '!g.yaml']}\n", "{extends: default, rules: {document-start: {ignore: f.yaml}}}\n",
]

CASES = [
    *WORDS, *FILES, *EXTENDED,
    *(case(["-c", "c", "f.yaml"], {"f.yaml": START, "p": b"a\n", "c": text.encode()}, err=f"zutkrad: c: configuration: {told}\n", status=255)
      for text, told in REFUSED),
    *(case(["-d", text, "f.yaml"], {"f.yaml": START, "p": b"a\n"}, err=f"zutkrad: configuration: {told}\n", status=255)
      for text, told in REFUSED if text and ":" in text),
    *(case(["-d", text, "f.yaml"], {"f.yaml": START, "p": b"a\n"}) for text in TAKEN),
]

# Files with problems in places of one to five digits, with the fault of a syntax, and with odd names.
FORMS = {
    "f.yaml": START,
    "a b#[c].yaml": b"---\na: yes\nb:  1\n" + b"c: 1\n" * 12 + b"d: [ 1,2\n",
    "far.yaml": b"---\n" + b"# c\n" * 9_998 + b"k:  1 \nl: " + b"m " * 6_000 + b"\n",
    "none.yaml": b"---\na: 1\n",
    "é/日本.yaml": "---\né:  'ü' #c\n".encode(),
}


def make(folder, files):
    """Makes the files of a case."""
    for name, what in files.items():
        path = os.path.join(folder, os.fsdecode(name))
        if isinstance(what, Shut):
            make(folder, {name: FOLDER if what.data is None else what.data})
            os.chmod(path, 0)
        elif what == LARGE:
            make(folder, {name: b""})
            os.truncate(path, MOST_BYTES + 1)
        elif isinstance(what, Link):
            trees.make(folder, [Entry(os.fsdecode(name), trees.LINK, what.target)])
        else:
            kind, data = (trees.FILE, what) if isinstance(what, bytes) else (what, b"")
            trees.make(folder, [Entry(os.fsdecode(name), kind, data)])


def remove(folder):
    """Removes them, the shut ones too."""
    for place, folders, _ in os.walk(folder):
        for name in folders:
            if not os.path.islink(os.path.join(place, name)):
                os.chmod(os.path.join(place, name), 0o755)
    shutil.rmtree(folder)
