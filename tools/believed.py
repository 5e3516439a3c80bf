#!/usr/bin/env python3
"""What must be believed: the definitions that the contracts of the library's public calls reach.

    tools/believed.py                    each definition that is meaning, by crate and file, with its lines, and the sum
    tools/believed.py --short            the sums alone
    tools/believed.py --bridges          also the bridges, and which public contract names them
    tools/believed.py --from CRATE..     what the public calls of these crates reach, and no others: the headline is
                                         --from yl_session yl_check yl_cli
    tools/believed.py --check            fails where a file of meaning imports a bridge that is no view

A definition is meaning or bridge as the first line of its file in specs/ says. A bridge ties code to meaning and is not counted.
A law is a public function without parameters. A clause of it ties a bridge of its crate to meaning if it names that bridge and, beside
it, meaning alone. Then the bridge need not be read: the clause is counted in its place with all that it reaches, and with it the
law's clauses on the same relation (that it has one value). Through any other bridge what it reaches is counted: nothing hides behind
a bridge. A view is a definition that an `impl Model` cites, or that says what a struct of its crate with a private field shows.
All this goes by names: that a law's statement determines the bridge is for its reader to see.
Lines are those of a definition with the comment above it.
"""
import os
import re
import sys
from collections import defaultdict

ROOT = os.path.join(os.path.dirname(os.path.abspath(__file__)), '..')
# layers that only other crates of the library call
INNER = {'yl_scalar', 'yl_row', 'failing_alloc', 'callers'}
# and what other crates of the library alone call, of the crates that users meet
INNER_CALLS = {
    'yl_text': {'first_special'},
    'yl_lexeme': {'Surroundings', 'KeyUnit', 'ShortStack', 'KeptStack', 'ColumnStack', 'BracketStack', 'Items',
                  'is_near', 'near', 'surroundings_suffice', 'unit_suffices'},
    'yl_marks': {'Marker', 'line_len', 'marked_by_lines'},
    'yl_events': {'told_documents'},
    'yl_scan': {'scalars_carry', 'states_equal', 'told_by_lines'},
}
WORD = re.compile(r"[^\s(){}\[\],;.:`\"]+")
USE = re.compile(r"(?m)^[ \t]*(?:pub )?(?:ghost )?use[ \t]+([^\s;{]+?)(?:\.\{([^}]*)\})?(?:[ \t]+as[ \t]+([^\s;]+))?[ \t]*;?[ \t]*$")
HEAD = re.compile(r"(?:unfoldable pub|abbrev pub|pub data|pub record|abbrev|pub|data|record)\s+([^\s:(]+)")


def read(path):
    with open(path, encoding='utf-8') as f:
        return f.read()


def imports(text):
    """local name -> (crate, module, name), and local module -> (crate, module)"""
    names, modules = {}, {}
    for path, items, alias in USE.findall(text):
        p = path.split('.')
        if len(p) < 4 or p[0] != 'Rattle' or p[1] == 'std' or p[2] != 'specs' or p[3] in ('declared', 'contracts'):
            continue
        if items:
            for item in items.split(','):
                m = re.match(r'\s*(\S+)(?:\s+as\s+(\S+))?\s*$', item)
                if m:
                    names[m.group(2) or m.group(1)] = (p[1], p[3], m.group(1))
        else:
            modules[alias or p[3]] = (p[1], p[3])
    return names, modules


class Specs:
    """the definitions of a file of specs/"""

    def __init__(self, crate, module, text):
        self.crate, self.module = crate, module
        self.kind = (re.match(r'-- (Meaning|Bridge): ', text) or [None, '?'])[1]
        self.names, self.modules = imports(text)
        self.declared = set(re.findall(rf"(?m)^use Rattle\.{crate}\.specs\.declared\.\S*\.(\w+)\.\{{\1\}}", text))
        self.shared = set(imports('\n'.join(re.findall(r"(?m)^pub (use .*)$", text)))[0])
        self.defs, self.lines, self.inner = {}, {}, {}
        name, comment, mutual = None, 0, False
        for line in text.split('\n'):
            bare = line.strip()
            indent = len(line) - len(line.lstrip())
            if not bare:
                comment = 0
                continue
            if bare.startswith('--'):
                if indent == 0 or mutual and indent == 2:
                    comment += 1
                elif name:
                    self.lines[name] += 1
                continue
            if bare.startswith('use '):
                name = None
                continue
            if bare.endswith('mutual'):
                mutual, name = True, None
                continue
            if indent == 0:
                mutual = False
            level = 2 if mutual else 0
            m = HEAD.match(bare) if indent == level else None
            if m is None and mutual and indent == 2:
                m = re.match(r"([^\s:(]+)(?= :)", bare)
            if m:
                name = m.group(1)
                self.defs.setdefault(name, '')
                self.lines[name] = self.lines.get(name, 0) + comment
                comment = 0
            if name:
                body = re.split(r'\s--\s', line)[0]
                self.defs[name] += body + '\n'
                self.lines[name] += 1
                c = re.match(r'\s+([A-Z]\w*) : ', body)
                if c and indent > level:
                    self.inner[c.group(1)] = name       # a constructor

    def reached(self, text):
        """the definitions that a text in this file names"""
        out = set()
        for m in WORD.finditer(text):
            w, before = m.group(0), text[m.start() - 1:m.start()]
            if before == '.':
                q = re.search(r"([^\s(){}\[\],;.]+)\.$", text[:m.start()])
                if q and q.group(1) in self.modules:
                    out.add(self.modules[q.group(1)] + (w,))
                continue
            if w in self.names:
                out.add(self.names[w])
            elif w in self.defs or w in self.inner:
                out.add((self.crate, self.module, w))
        return out


def library():
    crates = []
    for line in read(os.path.join(ROOT, 'crates.txt')).split('\n'):
        m = re.match(r'([a-z0-9_]+)[^:]*:', line)
        if m and os.path.exists(os.path.join(ROOT, 'crates', m.group(1), 'src/lib.rt')):
            crates.append(m.group(1))
    return [c for c in crates if not c.endswith('_tests') and c not in ('callers', 'failing_alloc', 'test_cases')]


def spans(text):
    """the clauses of a file, each with its place"""
    for m in re.finditer(r"\b(?:requires|ensures)\b(?:[ \t]+\w+)?[ \t]*\{", text):
        i, depth = m.end() - 1, 0
        while i < len(text):
            depth += {'{': 1, '}': -1}.get(text[i], 0)
            if depth == 0:
                break
            i += 1
        yield m.start(), text[m.end():i]


def exports(crate):
    text = read(os.path.join(ROOT, 'crates', crate, 'src/lib.rt'))
    names = set()
    for m in re.finditer(r"(?m)^pub use ([^;]*);", text):
        names.update(re.findall(r"\w+", m.group(1)))
    return names


def files(crate):
    """the sources of a crate, each with its text"""
    for folder, _, names in os.walk(os.path.join(ROOT, 'crates', crate, 'src')):
        for name in sorted(names):
            if name.endswith('.rt'):
                yield name, read(os.path.join(folder, name))


def private_structs(crates):
    """the structs of these crates with a private field"""
    found = set()
    for crate in crates:
        for _, text in files(crate):
            for m in re.finditer(r"(?m)^pub struct (\w+)[^{;]*\{\n(.*?)^\}", text, re.S):
                if re.search(r"(?m)^    (?!pub )\w+:", m.group(2)):
                    found.add(m.group(1))
    return found


class Clause:
    """a clause of a public call, or what a public type is seen as"""

    def __init__(self, crate, call, imported, text, is_law=False):
        self.crate, self.call, self.text = crate, call, text
        self.names, self.modules = imported
        self.is_law = is_law

    def keys(self):
        """what it names"""
        for m in WORD.finditer(self.text):
            word, before = m.group(0), self.text[:m.start()]
            if before.endswith('.'):
                module = re.search(r"[^\s(){}\[\],;.]*$", before[:-1]).group(0)
                if module in self.modules:
                    yield self.modules[module] + (word,)
            elif word in self.names:
                yield self.names[word]


def clauses(crate):
    """the clauses of the public calls of a crate, and what its types are seen as"""
    out = exports(crate)
    for name, text in files(crate):
        imported = imports(text)
        heads = [(m.start(), m) for m in re.finditer(
            r"(?m)^(?P<indent>[ ]*)(?P<pub>pub )?(?:unsafe )?fn (?P<fn>\w+)(?P<law>(?:<[^>]*>)?\(\)\n)?"
            r"|^(?P<impl>impl|pub trait)\b[^{;]*\{", text)]

        def owner(at):
            block, fn = None, None
            for start, m in heads:
                if start > at:
                    break
                if m.group('impl'):
                    block = m.group(0)
                else:
                    fn = m
                    if not m.group('indent'):
                        block = None
            return block, fn

        for at, clause in spans(text):
            block, fn = owner(at)
            if fn is None:
                continue
            call = fn.group('fn')
            if block is None:
                if fn.group('pub') and (call in out or name == 'lib.rt'):
                    yield Clause(crate, call, imported, clause, is_law=bool(fn.group('law')))
            else:
                types = set(re.findall(r"\b[A-Z]\w*", block)) & out
                trait = block.startswith('pub trait') or re.search(r"\bfor\b", block)
                if types and (fn.group('pub') or trait):
                    yield Clause(crate, f"{sorted(types)[0]}::{call}", imported, clause)
        for m in re.finditer(r"(?m)^impl[^{]* Model for (\w+)[^{]*\{(.*?)^\}", text, re.S):
            value = re.search(r"ghost Value = \{(.*?)\};", m.group(2), re.S)
            if value and m.group(1) in out:
                yield Clause(crate, m.group(1), imported, value.group(1))


class Definitions:
    """all definitions of the library"""

    def __init__(self, crates):
        self.files = {}
        for crate in crates:
            folder = os.path.join(ROOT, 'crates', crate, 'specs')
            for name in sorted(os.listdir(folder)) if os.path.isdir(folder) else []:
                if name.endswith('.antt') and name != 'Lib.antt':
                    self.files[(crate, name[:-5])] = Specs(crate, name[:-5], read(os.path.join(folder, name)))
        self.clauses = {crate: list(clauses(crate)) for crate in crates}
        self.views = {key for key in map(self.find, self.viewed(crates)) if key}
        structs = private_structs(crates)
        self.views |= {key for key in self.keys() if self.takes_private(key, structs)}
        self.laws = defaultdict(list)
        self.find_laws()

    def keys(self):
        return [at + (name,) for at, file in self.files.items() for name in file.defs]

    def find(self, key):
        """the definition of this name, with the record or type that a constructor belongs to; none if it is no definition"""
        file = self.files.get(key[:2])
        if file is None:
            return None
        name = file.inner.get(key[2], key[2])
        if name not in file.defs and name in file.shared:
            return self.find(file.names[name])
        return key[:2] + (name,) if name in file.defs else None

    def kind(self, key):
        return self.files[key[:2]].kind

    def lines(self, key):
        return self.files[key[:2]].lines[key[2]]

    def named_by(self, key):
        file = self.files[key[:2]]
        return {k for k in map(self.find, file.reached(file.defs[key[2]])) if k} - {key}

    def is_statement(self, key):
        """whether it is a fact about all values, which only a law states"""
        text = self.files[key[:2]].defs[key[2]]
        return re.match(r"abbrev pub \S+ : Type 0\n", text) is not None

    def is_relation(self, key):
        """whether it is a fact about its arguments"""
        head = self.files[key[:2]].defs[key[2]].split('\n')[0]
        return re.match(r"pub record \S+ \(.*: Type 0 where|.*→ Type 0$", head) is not None

    def takes_private(self, key, structs):
        """whether its first argument is one of these structs, of its own crate"""
        file = self.files[key[:2]]
        m = re.match(r"\S+ pub \S+ : (?:\{[^}]*\} → )?(\w+)", file.defs[key[2]])
        return m is not None and m.group(1) in file.declared & structs

    @staticmethod
    def viewed(crates):
        """what each `impl Model` cites"""
        for crate in crates:
            for _, text in files(crate):
                for m in re.finditer(r"(?m)^impl[^{]* Model for [^{]*\{(.*?)^\}", text, re.S):
                    names, _ = imports(m.group(1) + text)
                    for value in re.findall(r"ghost (?:Value|view) = \{(.*?)\};", m.group(1), re.S):
                        yield from (names[word] for word in WORD.findall(value) if word in names)

    def stated(self, clause):
        """what a law's clause names, with what the statements that it cites name"""
        named = {k for k in map(self.find, clause.keys()) if k}
        for key in [k for k in named if self.is_statement(k)]:
            named |= self.named_by(key)
        return named

    def find_laws(self):
        """of each bridge the clauses of laws that tie it to meaning"""
        for crate in self.clauses:
            for clause in self.clauses[crate]:
                bridges = self.bridges_in(clause)
                if clause.is_law and len(bridges) == 1 and min(bridges)[0] == crate:
                    relations = set(filter(self.is_relation, self.stated(clause)))
                    self.laws[bridges.pop()] += [c for c in self.clauses[crate] if c.call == clause.call
                                                 and (c is clause or relations & self.stated(c) and not self.bridges_in(c))]

    def bridges_in(self, clause):
        return {k for k in self.stated(clause) if self.kind(k) == 'Bridge' and not self.is_statement(k)} - self.views


def asked_crates(crates):
    """The crates whose calls count: those behind --from, or all that a user calls."""
    if '--from' not in sys.argv:
        return [c for c in crates if c not in INNER]
    named = [word for word in sys.argv[sys.argv.index('--from') + 1:] if not word.startswith('--')]
    if not named or set(named) - set(crates):
        sys.exit(f"--from wants libraries of crates.txt: {' '.join(sorted(set(named) - set(crates)))}")
    return named


class Reached:
    """what the public calls of some crates reach"""

    def __init__(self, all_, crates):
        self.all = all_
        self.calls, self.seen, self.todo = set(), set(), []
        self.named, self.laws = defaultdict(set), set()
        for crate in crates:
            for clause in all_.clauses[crate]:
                if clause.call.split('::')[0] not in INNER_CALLS.get(crate, ()):
                    self.calls.add((crate, clause.call))
                    self.reach(clause.keys(), f'{crate} {clause.call}')
        while self.todo:
            self.go_on(self.todo.pop())

    def reach(self, keys, by=None):
        for key in map(self.all.find, keys):
            if key and by and self.all.kind(key) == 'Bridge':
                self.named[key].add(by)
            if key and key not in self.seen:
                self.seen.add(key)
                self.todo.append(key)

    def go_on(self, key):
        laws = self.all.laws.get(key, ())
        if not laws:
            self.reach(self.all.named_by(key))
        for clause in laws:
            self.laws.add((clause.crate, clause.call))
            self.reach(clause.keys())

    def believed(self):
        """what has to be read"""
        return {k for k in self.seen if self.all.kind(k) == 'Meaning' or self.all.is_statement(k)}


def show(reached):
    """prints the definitions that have to be read, by file"""
    believed = reached.believed()
    for (crate, module), file in reached.all.files.items():
        mine = sorted(k[2] for k in believed if k[:2] == (crate, module))
        if mine:
            print(f'{crate} {module}: {sum(file.lines[n] for n in mine)} lines')
            print('    ' + ', '.join(f'{n} {file.lines[n]}' for n in mine))


def show_bridges(reached):
    print('\nbridges that a public contract names:')
    for key in sorted(reached.named):
        calls = sorted(reached.named[key])
        more = f' and {len(calls) - 3} more' if len(calls) > 3 else ''
        print(f"    {key[0]} {key[1]}.{key[2]}: {', '.join(calls[:3])}{more}")
    print('\nbridges that laws tie to meaning:')
    for key in sorted(k for k in reached.seen if reached.all.laws.get(k)):
        print(f"    {key[0]} {key[1]}.{key[2]}: {', '.join(sorted({f'{c.crate} {c.call}' for c in reached.all.laws[key]}))}")


def check(all_):
    """whether no file of meaning imports a bridge, views apart"""
    bad = []
    for (crate, module), file in all_.files.items():
        if file.kind not in ('Meaning', 'Bridge'):
            bad.append(f'{crate} {module}: its first line says neither Meaning nor Bridge')
        if file.kind == 'Meaning':
            named = {k for k in map(all_.find, file.names.values()) if k and all_.kind(k) == 'Bridge'} - all_.views
            bad += [f'{crate} {module} imports {k[0]} {k[1]}.{k[2]}' for k in sorted(named)]
            bad += [f'{crate} {module} imports {c} {m}' for c, m in sorted(file.modules.values())
                    if (c, m) in all_.files and all_.files[(c, m)].kind == 'Bridge']
    print('\n'.join(bad) or 'no file of meaning imports a bridge')
    return bool(bad)


def main():
    crates = library()
    all_ = Definitions(crates)
    if '--check' in sys.argv:
        sys.exit(check(all_))
    reached = Reached(all_, asked_crates(crates))
    if '--short' not in sys.argv:
        show(reached)
    if '--bridges' in sys.argv:
        show_bridges(reached)
    believed = reached.believed()
    skipped = reached.seen - believed
    print(f'{len(reached.calls)} public calls and types, with {len(reached.laws)} laws in the place of bridges, reach {len(believed)} definitions'
          f' that are meaning: {sum(map(all_.lines, believed))} lines')
    print(f'(and {len(skipped)} bridges, {sum(map(all_.lines, skipped))} lines, which may be skipped)')


main()
