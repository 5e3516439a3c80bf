"""What a project's configuration says, or its first fault."""

from . import events as ev
from .config import (BAD_VALUE, NOT_A_MAPPING, NOT_UTF8, RULES, TOO_LARGE, UNKNOWN_EXTENDS, UNKNOWN_KEY, Config, ConfigFault,
                     FALSE_WORDS, _parsed, _place, _plain, _Reader, _root, _word)
from .patterns import BadPattern, path_fits, pattern_of
from .scan import BLOCKS, DOC_END
from .text import MAX_BYTES, TextFault, decode, split

ERROR, WARNING = "error", "warning"
YAML_FILES = ["*.yaml", "*.yml", ".yamllint"]


class Patterns:
    def __init__(self, lines):
        """Raises BadPattern where a line is no pattern."""
        self.parsed = [pattern for pattern in map(pattern_of, lines) if pattern]

    def fits(self, path):
        found = False
        for back, parts in self.parsed:
            if path_fits(parts, path.split("/")):
                found = not back
        return found


class Project:
    def __init__(self, config, rules=None, ignored=None):
        self.config = config
        self.rules = rules or {}     # the patterns of a rule
        self.ignored = ignored or Patterns([])
        self.yaml_files = Patterns(YAML_FILES)

    @classmethod
    def empty(cls):
        return cls(Config({}, {}))

    @classmethod
    def standard(cls):
        return cls(Config.standard())

    @classmethod
    def relaxed(cls):
        config = Config.standard()
        for rule in ("braces", "brackets"):
            config.set(rule, (WARNING, {"max-spaces-inside": 1}))
        for rule in ("colons", "commas", "empty-lines", "hyphens", "line-length"):
            config.set(rule, (WARNING, {}))
        config.set("indentation", (WARNING, {"indent-sequences": "consistent"}))
        for rule in ("comments", "document-start", "truthy"):
            config.set(rule, False)
        return cls(config)

    def config_for(self, path):
        """The levels that hold for a path, or None where it is ignored."""
        path = path[1:] if path.startswith("/") else path[2:] if path.startswith("./") else path
        if self.ignored.fits(path):
            return None
        return {rule: level for rule, level in self.config.levels.items() if not (rule in self.rules and self.rules[rule].fits(path))}

    def is_yaml(self, name):
        return self.yaml_files.fits(name)


class _ProjectReader(_Reader):
    def __init__(self, rows, lexemes, files_fit):
        super().__init__()
        self.rows = rows
        self.ends = {(at.line, at.lexeme.col): at.line + at.lexeme.end_line for at in lexemes}
        self.files_fit = files_fit

    def lines(self, node):
        """The lines of a text, or None."""
        if node.kind != ev.SCALAR:
            return None
        if node.style in BLOCKS:
            return [row.text for row in self.rows[node.place[0] + 1:self.ends[node.place] + 1]]
        return [row.text for row in split(node.value)]

    def text(self, node, key_place):
        lines = self.lines(node)
        try:
            if lines is not None:
                Patterns(lines)
                return lines
        except BadPattern:
            pass
        self.bad(BAD_VALUE, node, key_place)
        return []

    def sequence(self, node, key_place):
        place = key_place if node.place is None else _place(node.place)
        return [line for item in node.items for line in self.text(item, place)]

    def patterns(self, node, key_place):
        return self.sequence(node, key_place) if node.kind == ev.SEQUENCE_START else self.text(node, key_place)

    def name(self, node, key_place, number=BAD_VALUE):
        if not _word(node):
            self.bad(number, node, key_place)

    def project(self, root):
        """The entries of the root that count: rules and their patterns, `ignore`, whether files are named, `yaml-files`."""
        said = {"rules": ({}, {}), "ignore": None, "files": False, "yaml-files": None}
        seen = set()
        for key, value in root.pairs():
            word, place = self.key(root, key, UNKNOWN_KEY)
            word = None if word is None else _word(key)
            if key.kind != ev.SCALAR:
                continue
            if word == "extends":
                self.name(value, place, UNKNOWN_EXTENDS)
            elif word == "rules":
                if value.kind == ev.MAPPING_START:
                    said["rules"] = self.rules(value), self.ignores(value)
                else:
                    self.bad(BAD_VALUE, value, place)
            elif word == "ignore":
                said["ignore"] = self.patterns(value, place)
                if "ignore-from-file" in seen:
                    self.fault(BAD_VALUE, place)
            elif word == "ignore-from-file":
                place_of_value = place if value.place is None else _place(value.place)
                if value.kind == ev.SEQUENCE_START:
                    for item in value.items:
                        self.name(item, place_of_value)
                else:
                    self.name(value, place)
                if not self.files_fit:
                    self.bad(BAD_VALUE, value, place)
                if "ignore" in seen:
                    self.fault(BAD_VALUE, place)
                said["files"] = True
            elif word == "yaml-files":
                if value.kind == ev.SEQUENCE_START:
                    said["yaml-files"] = self.sequence(value, place)
                else:
                    self.bad(BAD_VALUE, value, place)
            elif word == "locale":
                if value.kind != ev.SCALAR:
                    self.bad(BAD_VALUE, value, place)
            else:
                self.fault(UNKNOWN_KEY, place)
            seen.add(word)
        return said

    def ignores(self, mapping):
        """For each rule with a mapping its patterns or None; for each other rule False where it is off."""
        found = {}
        for key, value in mapping.pairs():
            rule = _word(key)
            if RULES.get(rule) is None:
                continue
            if value.kind == ev.MAPPING_START:
                found[rule] = None
                for option, node in value.pairs():
                    if _word(option) == "ignore":
                        place = _place(value.place if option.place is None else option.place)
                        found[rule] = self.patterns(node, place)
            else:
                found[rule] = False if _word(value) == "disable" or _plain(value) in FALSE_WORDS else None
        return found


def names(data):
    """What a configuration extends, or None, and the files that it names."""
    rows, lexemes, events, _ = _document(data)
    root = _root(events)
    extends, files = None, []
    for key, value in root.pairs() if root is not None and root.kind == ev.MAPPING_START else []:
        if _word(key) == "extends":
            extends = _word(value) or None
        elif _word(key) == "ignore-from-file":
            items = value.items if value.kind == ev.SEQUENCE_START else [value]
            files = [_word(item) for item in items if _word(item)]
    return extends, files


def _document(data):
    """The rows, the first document's lexemes and events, and where the second begins."""
    if len(data) > MAX_BYTES:
        raise ConfigFault(TOO_LARGE)
    try:
        text = decode(data)
    except TextFault:
        raise ConfigFault(NOT_UTF8) from None
    documents = [(ats, events) for ats, events in _parsed(text) if not (len(ats) == 1 and ats[0].lexeme.kind == DOC_END)]
    ats, events = documents[0] if documents else ([], [])
    second = None
    if len(documents) > 1:
        first = documents[1][0][0]
        second = (first.line, first.lexeme.col)
    return split(text), ats, events, second


def read(data, base, ignore_lines=""):
    """A configuration over the project that it extends, or ConfigFault."""
    rows, ats, events, second = _document(data)
    try:
        files = Patterns(row.text for row in split(ignore_lines))
    except BadPattern:
        files = None
    reader = _ProjectReader(rows, ats, files is not None)
    root = _root(events)
    said = None
    if root is None or root.place is None:
        reader.fault(NOT_A_MAPPING, (1, 1))
    elif root.kind != ev.MAPPING_START:
        reader.fault(NOT_A_MAPPING, _place(root.place))
    else:
        said = reader.project(root)
    if second is not None:
        reader.fault(NOT_A_MAPPING, _place(second))
    if reader.faults:
        place, number = min(reader.faults)
        raise ConfigFault(number, place)
    rules, ignores = said["rules"]
    # a later mapping of a key `rules` stands in place of an earlier one, and so does a later value of a rule
    config = Config(dict(base.config.levels), {rule: dict(options) for rule, options in base.config.options.items()})
    for rule, setting in rules.items():
        config.set(rule, setting)
    project = Project(config, dict(base.rules), base.ignored)
    for rule, lines in ignores.items():
        if lines is False:
            project.rules.pop(rule, None)
        elif lines is not None:
            project.rules[rule] = Patterns(lines)
    if said["ignore"] is not None:
        project.ignored = Patterns(said["ignore"])
    elif said["files"]:
        project.ignored = files
    if said["yaml-files"] is not None:
        project.yaml_files = Patterns(said["yaml-files"])
    return project
