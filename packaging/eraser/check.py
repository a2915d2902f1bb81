#!/usr/bin/env python3
"""Checks what the eraser has written, without the eraser: whether the tokens of the output are those of the sources,
without what the rules drop, with what they rename, and with the exceptions of exceptions.py.

    packaging/eraser/check.py [--crates FOLDER] [--to FOLDER]

It prints the first difference of each file, and ends with status 1 where there is one.
"""
import argparse
import hashlib
import itertools
import os
import sys

sys.dont_write_bytecode = True
HERE = os.path.dirname(os.path.abspath(__file__))
sys.path.insert(0, HERE)
from exceptions import CRATES, EXCEPTIONS, UNBOUNDED, VISIBLE  # noqa: E402
from expected import excepted, expected  # noqa: E402
from tokens import Unreadable, scan  # noqa: E402

ROOT = os.path.dirname(os.path.dirname(HERE))
ALLOWED = ('#![allow(clippy::all, dead_code, unused_imports, unused_variables)] '
           '#![warn(clippy::incompatible_msrv)] ')


def arguments(words):
    parser = argparse.ArgumentParser(description='Checks what the eraser has written, without the eraser.')
    parser.add_argument('--crates', default=os.path.join(ROOT, 'crates'), metavar='FOLDER')
    parser.add_argument('--to', default=os.path.join(ROOT, 'rust', 'src', 'proved'), metavar='FOLDER')
    return parser.parse_args(words)


def first_difference(tokens, others):
    """The first two tokens that differ, of which one may be None at an end, or None where all are equal."""
    for one, other in itertools.zip_longest(tokens, others):
        if one is None or other is None or one.content != other.content:
            return one, other
    return None


def stray_note(source, output):
    """The first comment of an output, other than documentation, that is none of the source's, in order."""
    rest = iter([token.text for token in source if token.kind == 'note'])
    return next((token for token in output if token.kind == 'note' and token.text not in rest), None)


def refusals(name, source, output):
    """What is wrong with the output of a source, which is named by its path below `crates` without `src`."""
    lists = [[item for file, item in listed if file == name] for listed in (UNBOUNDED, VISIBLE)]
    try:
        given, found = scan(source), scan(output)
        tokens, unused = expected(given, name.partition('/')[0], *lists)
        for entry in unused:
            yield '%s: an entry of exceptions.py fits nothing: %s' % (name, entry)
        for number, (file, old, new) in enumerate(EXCEPTIONS, 1):
            if file == name:
                replaced = excepted(tokens, old, new)
                if replaced is None:
                    yield '%s: exception %d does not fit' % (name, number)
                tokens = replaced or tokens
        difference = first_difference(tokens, [token for token in found if token.kind != 'note'])
        note = stray_note(given, found)
    except (Unreadable, ValueError) as fault:
        yield '%s: %s' % (name, fault)
        return
    if difference:
        yield said(name, *difference)
    if note:
        yield '%s: its output has at line %d a comment that the source does not have there: %s' % (
            name, note.line, note.text)


def said(name, one, other):
    """A difference, in words."""
    due = '%s:%d: %s is due' % (name, one.line, shown(one)) if one else '%s: nothing more is due' % name
    has = 'the output has %s at line %d' % (shown(other), other.line) if other else 'the output ends'
    return '%s, and %s' % (due, has)


def shown(token):
    """A token in a message. A sign that belongs to the one before it is shown so."""
    return '..' + token.text if token.is_glued else token.text


def listing(top, ending=''):
    """The paths of all files below a folder whose names end so."""
    return sorted(os.path.relpath(os.path.join(folder, name), top).replace(os.sep, '/')
                  for folder, _, names in os.walk(top) for name in names if name.endswith(ending))


def read(*path):
    with open(os.path.join(*path), 'rb') as file:
        return file.read()


def pairs(crates):
    """The path of each source below `crates`, its name, and the path of its output."""
    for crate in CRATES:
        for path in listing(os.path.join(crates, crate, 'src'), '.rt'):
            output = crate if path == 'lib.rt' else '%s/%s' % (crate, path[:-3])
            yield '%s/src/%s' % (crate, path), '%s/%s' % (crate, path), output + '.rs'


def sum_of(top, names):
    """The SHA-256 of files, as DIGEST has it."""
    parts = []
    for name in sorted(names):
        data = read(top, name)
        parts.append(name.encode() + b'\0' + str(len(data)).encode() + b'\0' + data)
    return hashlib.sha256(b''.join(parts)).hexdigest()


def refusals_of_all(crates, to):
    """What is wrong with the files of an output."""
    files = list(pairs(crates))
    due = sorted([output for _, _, output in files] + ['mod.rs', 'DIGEST'])
    there = listing(to)
    if there != due:
        yield 'other files than due: %s' % ', '.join(sorted(set(due) ^ set(there)))
        return
    modules = scan(ALLOWED + ' '.join('pub mod %s;' % crate for crate in CRATES))
    if first_difference(modules, [token for token in scan(read(to, 'mod.rs').decode()) if token.kind == 'code']):
        yield 'mod.rs has not a line for each crate'
    digest = 'sources %s\neraser %s\n' % (sum_of(crates, [source for source, _, _ in files]),
                                          sum_of(HERE, listing(HERE, '.py')))
    if read(to, 'DIGEST').decode() != digest:
        yield 'DIGEST is not that of these sources and this eraser'
    for source, name, output in files:
        yield from refusals(name, read(crates, source).decode(), read(to, output).decode())


def agrees(crates, to):
    """Prints what is wrong with an output, or how many files agree. Returns whether all do."""
    wrong = list(refusals_of_all(crates, to))
    for line in wrong:
        print(line)
    if not wrong:
        print('%d files agree' % len(list(pairs(crates))))
    return not wrong


if __name__ == '__main__':
    asked = arguments(sys.argv[1:])
    sys.exit(0 if agrees(asked.crates, asked.to) else 1)
