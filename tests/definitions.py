#!/usr/bin/env python3
"""Counts the definitions that a reader of the public contracts must believe.

    tests/definitions.py            the counts
    tests/definitions.py --names    with the names that are counted of each file

A definition line is a line of crates/*/specs outside specs/Internal that is no import, comment or blank line.
The words of the library are those that the public clauses of patricia_tree, patricia_keys and patricia_json name,
those of the iterators of patricia_core, of the cursors that read, of `is_within` and of `Steps`; to them the program ptree adds the
public clauses of patricia_run, the program prefixes those of prefixes_core, and the functions that C calls those of
patricia_c. The words of the laws are those that the clauses of the law functions (laws.rt and examples.rt) name and
no other clause does: they follow from the others, and need no belief.

The words are found by their text: a name in a clause or in a definition that is counted reaches the definition of
that name in the same file, or in the file that an import brings it from. A definition counts with all its lines,
and with those of the section that it stands in. Definitions of specs/Internal are passed through and not counted,
and those of the toolchain are not looked at. What a Model says of its storage (`coded`, `view`,
`invariant`) is no clause.
"""
import argparse
import glob
import os
import re
from typing import NamedTuple

ROOT = os.path.dirname(os.path.dirname(os.path.abspath(__file__)))
CRATES = os.path.join(ROOT, 'crates')
LIBRARY = ('patricia_tree/src/**/*.rt', 'patricia_keys/src/**/*.rt', 'patricia_json/src/**/*.rt',
           'patricia_core/src/elements.rt', 'patricia_core/src/entries.rt', 'patricia_core/src/prefixes.rt',
           'patricia_core/src/ranges.rt', 'patricia_walks/src/**/reading.rt', 'patricia_walks/src/near.rt',
           'patricia_distance/src/near.rt', 'patricia_*/src/steps.rt')
PROGRAM = 'patricia_run/src/**/*.rt', 'ptree/src/**/*.rt'
PREFIXES = ('prefixes_core/src/**/*.rt',)
FOR_C = ('patricia_c/src/**/*.rt',)
LAWS = 'patricia_*/src/laws.rt', 'patricia_*/src/examples.rt'
SPECS = 'patricia_*/specs/**/*.antt', 'ptree/specs/**/*.antt', 'prefixes_core/specs/**/*.antt'

IMPORT = re.compile(r'\b(?:ghost )?use ([^\s;{]+?)(?:\.?\{([^}]*)\}| as (\w+))?(?:;|$)', re.M)
MODULE = re.compile(r'Rattle\.(\w+)\.specs\.(.+)$')
NAME = re.compile(r"[^\W\d][\w'-]*(?:\.[^\W\d][\w'-]*)?")
SIGNED = re.compile(r'(?:(?:unfoldable|abbrev|pub) )*(?:(data|record) ([^\s:]+)|([^\s:]+) :)')
CONSTRUCTOR = re.compile(r'([^\s:{(→]+) :')
FUNCTION = re.compile(r'( *)(pub )?(?:pub\([^)]*\) )?(?:const )?(?:extern "C" )?fn \w+')
CLAUSE = re.compile(r' *(requires|ensures)\b')
GHOST = re.compile(r'ghost (?!use\b)(\w+)')
UNSAID = 'coded', 'view', 'invariant'


class Definition(NamedTuple):
    file: str
    name: str
    lines: tuple


def read(path):
    with open(path, encoding='utf-8') as file:
        return file.read()


def paths(patterns):
    """The files of these patterns, by their paths from crates/."""
    found = (x for pattern in patterns for x in glob.glob(os.path.join(CRATES, pattern), recursive=True))
    return sorted({os.path.relpath(x, CRATES) for x in found})


def file_of(module):
    """The file of a module of this repository, followed through the lines that export it again."""
    match = MODULE.match(module)
    if not match:
        return None
    crate, inner = match.groups()
    path = os.path.join(crate, 'specs', *inner.split('.')) + '.antt'
    if os.path.isfile(os.path.join(CRATES, path)):
        return path
    front = os.path.join(CRATES, crate, 'specs', 'Lib.antt')
    again = re.search(r'^pub use (\S+\.%s)$' % re.escape(inner), read(front), re.M) if os.path.isfile(front) else None
    return file_of(again.group(1)) if again else None


def imports(text):
    """What a text imports: each name with its file and its name there, and each alias of a file."""
    names, aliases = {}, {}
    for module, listed, alias in IMPORT.findall(text):
        file = file_of(module)
        if file and listed:
            for item in listed.split(','):
                old, _, new = item.strip().partition(' as ')
                names[new or old] = file, old
        elif file:
            aliases[alias or module.rpartition('.')[2]] = file
    return names, aliases


def is_counted(line):
    line = line.strip()
    return bool(line) and not line.startswith('--') and not re.match(r'(pub )?(use|mod) ', line)


def definitions(file):
    """The definitions of a file of specs/ and, by name, where each is: its own name, or that of a constructor."""
    found, current, sections = {}, None, []
    for at, line in enumerate(read(os.path.join(CRATES, file)).split('\n')):
        if not is_counted(line):
            continue
        indent, said = len(line) - len(line.lstrip()), line.strip()
        if current and indent > current[0]:
            current[3].append(at)
            constructor = CONSTRUCTOR.match(said)
            if current[2] == 'data' and constructor:
                found.setdefault(constructor.group(1), current)
            continue
        if sections and indent > sections[-1][0] and not sections[-1][2]:
            sections[-1][1].append(at)
            sections[-1] = (*sections[-1][:2], said.endswith('where'))
            current = None
            continue
        while sections and indent <= sections[-1][0]:
            sections.pop()
        if said.startswith('module ') or said == 'mutual':
            sections.append((indent, [at], said.endswith('where') or said == 'mutual'))
            current = None
            continue
        signed = SIGNED.match(said)
        if signed:
            name = signed.group(2) or signed.group(3)
            current = found[name] = indent, name, signed.group(1), [x for section in sections for x in section[1]]
        if current:
            current[3].append(at)
    return {name: Definition(file, whole[1], tuple(whole[3])) for name, whole in found.items()}


def public_text(path):
    """What the public items of a source file say: their clauses and ghost items."""
    said, taking, opened = [], False, ''
    for line in read(os.path.join(CRATES, path)).split('\n'):
        if re.match(r'(pub )?(trait|impl)\b', line):
            opened = line
        function, ghost = FUNCTION.match(line), GHOST.match(line.strip())
        if function:
            held = function.group(1) and (' for ' in opened or opened.startswith('pub trait'))
            taking = bool(function.group(2) or held)
        elif ghost:
            taking = ghost.group(1) not in UNSAID
        if taking and not line.lstrip().startswith('//'):
            said.append(line)
        starts_body = line.endswith('{') and not CLAUSE.match(line)
        if starts_body or line.strip() == '{}' or line.endswith(';') or (ghost and line.endswith('},')):
            taking = False
    return '\n'.join(said)


class Reached:
    """The definitions that texts reach."""

    def __init__(self):
        self.found = {}
        self.files = {}

    def scope(self, file):
        if file not in self.files:
            self.files[file] = definitions(file), *imports(read(os.path.join(CRATES, file)))
        return self.files[file]

    def add_name(self, file, name):
        definition = self.scope(file)[0].get(name)
        if definition and (file, definition.name) not in self.found:
            self.found[file, definition.name] = definition
            lines = read(os.path.join(CRATES, file)).split('\n')
            self.add_text('\n'.join(lines[x] for x in definition.lines), *self.scope(file), file)

    def add_text(self, text, own, names, aliases, file=None):
        for word in NAME.findall(re.sub('--.*', '', text)):
            first, _, second = word.partition('.')
            if second and first in aliases:
                self.add_name(aliases[first], second)
            elif first in own:
                self.add_name(file, first)
            elif first in names:
                self.add_name(*names[first])

    def add_clauses(self, patterns):
        for path in paths(patterns):
            if not patterns[0].startswith('patricia_*') and os.path.basename(path) in ('laws.rt', 'examples.rt'):
                continue
            text = read(os.path.join(CRATES, path))
            self.add_text(public_text(path), {}, *imports(text))
        return self

    def lines(self):
        """The lines that count, by file."""
        counted = {}
        for definition in self.found.values():
            if '/Internal' not in definition.file:
                counted.setdefault(definition.file, set()).update(definition.lines)
        return counted


def tell(title, lines, reached=None):
    print('%s: %d lines' % (title, total(lines)))
    for file, counted in sorted(lines.items()):
        names = sorted(name for at, name in reached.found if at == file) if reached else []
        print('    %4d  %s' % (len(counted), file) + ''.join('\n            ' + name for name in names))


def without(lines, others):
    """The lines that are not among the others, by file."""
    left = {file: counted - others.get(file, set()) for file, counted in lines.items()}
    return {file: counted for file, counted in left.items() if counted}


def counted():
    """The lines that count, by whose they are, and all lines of definitions."""
    library = Reached().add_clauses(LIBRARY)
    both = Reached().add_clauses(LIBRARY).add_clauses(PROGRAM)
    programs = Reached().add_clauses(LIBRARY).add_clauses(PROGRAM).add_clauses(PREFIXES)
    everything = Reached().add_clauses(LIBRARY).add_clauses(PROGRAM).add_clauses(PREFIXES).add_clauses(FOR_C)
    laws = Reached().add_clauses(LAWS)
    whole = {}
    for file in paths(SPECS):
        if '/Internal' not in file:
            text = read(os.path.join(CRATES, file)).split('\n')
            whole[file] = {at for at, line in enumerate(text) if is_counted(line)}
    parts = {
        'clauses of the library': (library.lines(), library),
        'clauses of the library and the program': (both.lines(), both),
        'clauses of prefixes besides': (without(programs.lines(), both.lines()), programs),
        'clauses for C besides': (without(everything.lines(), programs.lines()), everything),
        'laws alone': (without(laws.lines(), everything.lines()), laws),
        'no public clause': (without(without(whole, everything.lines()), laws.lines()), None),
    }
    return parts, whole


def total(lines):
    return sum(map(len, lines.values()))


def names():
    """The definitions that public clauses reach, by their names."""
    everything = counted()[0]['clauses for C besides'][1]
    return sorted({name for file, name in everything.found if '/Internal' not in file})


def page():
    """What docs/PROMISES.md has of these counts: pieces of its lines, in its order."""
    library, both, prefixes, for_c, laws, _ = [lines for lines, _ in counted()[0].values()]
    yield 'cite %d lines of definitions' % total(library)
    yield 'those of library and `ptree` %d' % total(both)
    yield '`prefixes` stands on %d besides' % total(prefixes)
    yield 'the functions for C %d' % total(for_c)
    yield 'Another %d lines are said by laws alone' % total(laws)


def main():
    parser = argparse.ArgumentParser(description='Counts the definitions that a reader of the contracts must believe.')
    parser.add_argument('--names', action='store_true', help='with the names that are counted of each file')
    asked = parser.parse_args()
    parts, whole = counted()
    for title, (lines, reached) in parts.items():
        tell(title, lines, reached if asked.names else None)
    print('all: %d lines' % total(whole))


if __name__ == '__main__':
    main()
