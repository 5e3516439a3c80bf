#!/usr/bin/python3
"""compare_projects.py SEED COUNT: compares what the model says of random project configurations
with what yamllint (Debian's package) says of them."""

import os
import random
import sys
import tempfile
import warnings

warnings.simplefilter("ignore")
sys.path.insert(0, os.path.dirname(os.path.abspath(__file__)))

from yamllint.config import YamlLintConfig, YamlLintConfigError  # noqa: E402

from model.config import RULES, ConfigFault  # noqa: E402
from model.project import Project, names, read  # noqa: E402

PATTERNS = ["*.gen.yaml", "/bin/", "a", "a.yaml", "b/*", "!b/a.yaml", "# none", "", "c/**", "**/d", "[ab].yaml", "x y", "*", "!/bin/keep"]
BAD_PATTERNS = ["[z-a]", "a\\"]
PATHS = ["a", "a.yaml", "bin/a.yaml", "bin/keep", "b/a.yaml", "b/c/d", "c/x/y.yaml", "x.gen.yaml", "./a.yaml", "/b/a.yaml", "d", "x y", "q/a"]
NAMES = ["a.yaml", "b.yml", ".yamllint", "c.txt", "yamllint", "d.gen.yaml"]
OPTIONS = {"line-length": ["max: 100", "max: 20"], "braces": ["max-spaces-inside: 3", "forbid: true"], "brackets": ["min-spaces-inside: 1"],
           "colons": ["max-spaces-after: 2"], "comments": ["min-spaces-from-content: 1"], "indentation": ["spaces: 2", "indent-sequences: false"],
           "empty-lines": ["max: 5"], "truthy": ["check-keys: false"], "key-ordering": [], "quoted-strings": ["required: true"],
           "new-lines": ["type: dos"], "document-start": ["present: false"], "trailing-spaces": []}


def quoted(r, text):
    how = r.randrange(3)
    if how == 0 and text and text[0] not in "*!#[{&/ " and ": " not in text and "\\" not in text and text not in ("",):
        return text
    if how == 1:
        return "'" + text.replace("'", "''") + "'"
    return '"' + text.replace("\\", "\\\\").replace('"', '\\"') + '"'


def pattern(r):
    return r.choice(BAD_PATTERNS) if r.random() < 0.02 else r.choice(PATTERNS)


def patterns(r, indent, may_be_text=True):
    """A value behind a key and its colon, in a block mapping at this column."""
    how = r.randrange(8)
    lines = [pattern(r) for _ in range(r.randint(1, 4))]
    deep = " " * (indent + r.randint(1, 4))
    if may_be_text and how < 3:
        chomp = r.choice(["", "-", "+"])
        behind = r.choice(["", "", f"\n{' ' * indent} # a comment", "\n# a comment", "\n"])
        body = "".join(f"\n{deep}{line}" if line else "\n" for line in lines)
        return f" |{chomp}{body}{behind}"
    if may_be_text and how == 3:
        return " " + quoted(r, lines[0])
    if may_be_text and how == 4:
        return "\n" + deep + "|" + "".join(f"\n{deep}{line}" if line else "\n" for line in lines)
    if how in (5, 6):
        return " [" + ", ".join(quoted(r, line) for line in lines) + "]"
    if how == 7 and r.random() < 0.15:
        return r.choice(["", " {}", " [[]]", " *x", " {a: b}"])
    dash = " " * (indent + r.choice([0, 0, 2]))
    return "".join(f"\n{dash}- {quoted(r, line)}" if r.random() < 0.8 else f"\n{dash}- |\n{dash}  {line}" for line in lines)


def rule(r, name):
    how = r.randrange(6)
    if how == 0:
        return " enable"
    if how == 1:
        return " disable"
    if how == 2 and r.random() < 0.1:
        return r.choice([" [a]", " 5", " maybe"])
    entries = []
    for option in OPTIONS[name]:
        if r.random() < 0.5:
            entries.append(option)
    if r.random() < 0.4:
        entries.append("level: " + r.choice(["error", "warning"]))
    if r.random() < 0.02:
        entries.append("bogus: 1")
    if r.random() < 0.5:
        entries.append("ignore:" + patterns(r, 4))
    if r.random() < 0.05:
        entries.append("ignore-from-file: " + r.choice(["x", "[a]", "{}"]))
    r.shuffle(entries)
    return "".join(f"\n    {entry}" for entry in entries) if entries else " {}"


def configuration(r, base, folder):
    keys = []
    if base is not None:
        keys.append(f"extends: {base}")
    if r.random() < 0.85:
        chosen = r.sample(sorted(OPTIONS), r.randint(1, 4))
        keys.append("rules:" + ("".join(f"\n  {name}:{rule(r, name)}" for name in chosen)))
    lines = ""
    if r.random() < 0.4:
        keys.append("ignore:" + patterns(r, 0))
    if r.random() < 0.2 and not (keys[-1:] and keys[-1].startswith("ignore:") and r.random() < 0.8):
        files = []
        for _ in range(r.randint(1, 2)):
            name = os.path.join(folder, f"ignore{len(files)}")
            with open(name, "w") as file:
                text = "".join(pattern(r) + r.choice(["\n", "\r\n"]) for _ in range(r.randint(0, 3)))
                file.write(text)
            lines += text
            files.append(name)
        keys.append("ignore-from-file: " + (files[0] if len(files) == 1 else "[" + ", ".join(files) + "]"))
    if r.random() < 0.3:
        keys.append("yaml-files:" + patterns(r, 0, r.random() < 0.05))
    if r.random() < 0.1:
        keys.append("locale: en_US.UTF-8")
    r.shuffle(keys)
    return "".join(f"{key}\n" for key in keys) or "{}\n", lines


def theirs(text):
    try:
        return YamlLintConfig(text)
    except (YamlLintConfigError, Exception):
        return None


def shown(config, path):
    if config.is_file_ignored(path):
        return None
    return {rule.ID: config.rules[rule.ID] for rule in config.enabled_rules(path) if RULES.get(rule.ID) is not None}


def ours_shown(project, path):
    levels = project.config_for(path)
    return None if levels is None else {rule: {"level": level, **project.config.options[rule]} for rule, level in levels.items()}


def without_ignore(rules):
    """Without what 1.29 has not."""
    return None if rules is None else {rule: {k: v for k, v in said.items() if (k in RULES[rule] and k != "forbid-duplicated-merge-keys") or k == "level"}
                                       for rule, said in rules.items() if rule != "anchors"}


def main(seed, count):
    r = random.Random(seed)
    differ = bad = 0
    with tempfile.TemporaryDirectory() as folder:
        for n in range(count):
            base_name = r.choice([None, "default", "relaxed"])
            project = {None: Project.empty, "default": Project.standard, "relaxed": Project.relaxed}[base_name]()
            for step in range(r.randint(1, 3)):
                text, lines = configuration(r, base_name, folder)
                want = theirs(text)
                try:
                    project = read(text.encode(), project, lines)
                except ConfigFault as fault:
                    project = None
                    why = fault
                if (want is None) != (project is None):
                    differ += 1
                    print("--", "they refuse" if want is None else f"we refuse {why}", text, sep="\n")
                    break
                if want is None:
                    bad += 1
                    break
                assert names(text.encode())[0] == base_name
                same = all(without_ignore(shown(want, path)) == without_ignore(ours_shown(project, path)) for path in PATHS)
                same = same and all(bool(want.is_yaml_file(name)) == project.is_yaml(name) for name in NAMES)
                if not same:
                    differ += 1
                    print("--", text, sep="\n")
                    for path in PATHS:
                        a, b = without_ignore(shown(want, path)), without_ignore(ours_shown(project, path))
                        if a != b:
                            print(path, a, b, sep="\n")
                            break
                    break
                base_name = os.path.join(folder, f"base{step}.yaml")
                with open(base_name, "w") as file:
                    file.write(text)
            if differ > 5:
                break
    print(f"{n + 1} chains, {bad} refused by both, {differ} differences")


if __name__ == "__main__":
    main(int(sys.argv[1]), int(sys.argv[2]))
