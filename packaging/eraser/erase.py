#!/usr/bin/env python3
"""Turns the Rattle sources of the map into ordinary Rust, by dropping what is for the checker alone.

    packaging/eraser/erase.py [--crates FOLDER] [--to FOLDER] [--unchecked]

The output is a module of Rust for each crate, and replaces the folder of the output as a whole, if the check of
check.py agrees with it. README.md tells the rules and the exceptions.
"""
import argparse
import hashlib
import os
import shutil
import sys

sys.dont_write_bytecode = True
HERE = os.path.dirname(os.path.abspath(__file__))
sys.path.insert(0, HERE)
import check  # noqa: E402
import exceptions  # noqa: E402
import rules  # noqa: E402
from words import Mistake, split, text_of  # noqa: E402

ROOT = os.path.dirname(os.path.dirname(HERE))
HEAD = """//! The proved crates as ordinary Rust: made by `packaging/eraser/erase.py`, and not to be edited.
#![allow(clippy::all, dead_code, unused_imports, unused_variables)]
#![warn(clippy::incompatible_msrv)]

"""


def arguments(words):
    parser = argparse.ArgumentParser(description='Turns the Rattle sources of the map into ordinary Rust.')
    parser.add_argument('--crates', default=os.path.join(ROOT, 'crates'), metavar='FOLDER')
    parser.add_argument('--to', default=os.path.join(ROOT, 'rust', 'src', 'proved'), metavar='FOLDER')
    parser.add_argument('--unchecked', action='store_true', help='write it without a check')
    return parser.parse_args(words)


def sources(crates):
    """The sources of all crates: for each its crate, and its path in the crate's `src`."""
    found = []
    for crate in exceptions.CRATES:
        top = os.path.join(crates, crate, 'src')
        if not os.path.isfile(os.path.join(top, 'lib.rt')):
            raise Mistake('%s has no lib.rt' % top)
        for folder, _, files in os.walk(top):
            found += [(crate, os.path.relpath(os.path.join(folder, name), top).replace(os.sep, '/'))
                      for name in files if name.endswith('.rt')]
    return sorted(found)


def read(*path):
    with open(os.path.join(*path), encoding='utf-8', newline='') as file:
        return file.read()


def erased(text, crate, name):
    """A source of a crate as ordinary Rust. Its name is its path below `crates`, without `src`."""
    words = split(text)
    entries = [tuple(item for file, item in listed if file == name)
               for listed in (exceptions.UNBOUNDED, exceptions.VISIBLE)]
    source = rules.Source(crate, name, exceptions.CRATES, *entries)
    for rule in rules.RULES:
        rule(words, source)
    text = text_of(words)
    for file, old, new in exceptions.EXCEPTIONS:
        if file == name and text.count(old) != 1:
            raise Mistake('%s: an exception does not fit, which the text has %d times:\n%s' % (
                name, text.count(old), old))
        text = text.replace(old, new) if file == name else text
    return text


def target(crate, path):
    """Where the Rust of a source is written, below the folder of the output."""
    return crate + '.rs' if path == 'lib.rt' else '%s/%s.rs' % (crate, path[:-len('.rt')])


def digest(files):
    """The SHA-256 of some files, by their names and bytes."""
    sum_of = hashlib.sha256()
    for name, path in sorted(files):
        with open(path, 'rb') as file:
            data = file.read()
        sum_of.update(b'%s\0%d\0%s' % (name.encode(), len(data), data))
    return sum_of.hexdigest()


def digests(crates, found):
    """The digests of the sources and of the eraser, in two lines."""
    proved = [('%s/src/%s' % place, os.path.join(crates, place[0], 'src', place[1])) for place in found]
    own = [(name, os.path.join(HERE, name)) for name in os.listdir(HERE) if name.endswith('.py')]
    return 'sources %s\neraser %s\n' % (digest(proved), digest(own))


def write_all(crates, to):
    """Writes the Rust of all crates to a folder."""
    found = sources(crates)
    names = {'%s/%s' % place for place in found}
    for file in [entry[0] for entry in exceptions.EXCEPTIONS + exceptions.UNBOUNDED + exceptions.VISIBLE]:
        if file not in names:
            raise Mistake('there is no %s, which exceptions.py names' % file)
    texts = {target(*place): erased(read(crates, place[0], 'src', place[1]), place[0], '%s/%s' % place)
             for place in found}
    texts['mod.rs'] = HEAD + ''.join('pub mod %s;\n' % crate for crate in exceptions.CRATES)
    texts['DIGEST'] = digests(crates, found)
    for path, text in texts.items():
        path = os.path.join(to, path)
        os.makedirs(os.path.dirname(path), exist_ok=True)
        with open(path, 'w', encoding='utf-8', newline='') as file:
            file.write(text)


def main(words):
    asked = arguments(words)
    to = os.path.abspath(asked.to)
    fresh = to + '.new'
    shutil.rmtree(fresh, ignore_errors=True)
    try:
        write_all(asked.crates, fresh)
    except Mistake as mistake:
        shutil.rmtree(fresh, ignore_errors=True)
        sys.exit('%s: %s' % (os.path.basename(__file__), mistake))
    if not asked.unchecked and not check.agrees(asked.crates, fresh):
        sys.exit('%s: the check refuses what is written to %s' % (os.path.basename(__file__), fresh))
    shutil.rmtree(to, ignore_errors=True)
    os.rename(fresh, to)


if __name__ == '__main__':
    main(sys.argv[1:])
