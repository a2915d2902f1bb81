#!/usr/bin/env python3
"""Builds the library for C over what `rt ci` built in a folder.

    tests/archive.py FOLDER FILE [LOG]

With the log of an `rt ci` that still runs there, it begins when the log says that the libraries below are proved. The
build proves the crate, which `rt ci` does too without leaving anything to build from. What it built is kept on this
machine, beside what `rt ci` keeps, by the checksum of all that it read.
"""
import hashlib
import os
import re
import shutil
import sys
import tempfile
import time

sys.path.insert(0, os.path.dirname(os.path.dirname(os.path.abspath(__file__))))
from tests import crates as listing  # noqa: E402
from tests.mutants.checks import Prover  # noqa: E402
from tests.mutants.edits import Sources, read  # noqa: E402


def proved(log, names):
    """Waits until a log says of each of these crates whether it is proved, and returns whether all are."""
    while True:
        said = dict(re.findall(r'^rt: (\w+) (proved|is kept|NOT PROVED)', read(log), re.M))
        if 'NOT PROVED' in said.values() or {*names} <= {*said}:
            return {*names} <= {*said} and 'NOT PROVED' not in [said[x] for x in names]
        time.sleep(2)


def kept(prover, sources):
    """Where what a build makes of these sources is kept."""
    formats = [x + '/format' for x in sorted(prover.libraries(sources.crate))]
    parts = sorted(sources.texts.items()), [read(x) for x in [prover.kit + '/KIT-ID', *formats]]
    place = os.path.join(os.path.dirname(prover.kit), 'rattle-kept', 'archives')
    return os.path.join(place, hashlib.sha256(repr(parts).encode()).hexdigest())


def build(prover, sources, to):
    """Builds it, and returns what is said."""
    with tempfile.TemporaryDirectory(prefix='archive-') as room:
        made = os.path.join(room, 'made')
        said = prover.run('build', sources, {}, '--backend', 'llvm', '--toolchain', prover.kit + '/toolchain', '-o', made)
        if os.path.exists(made):
            put(made, to)
    return said


def put(path, to):
    """Copies a file. Who looks meanwhile finds all of it or nothing."""
    os.makedirs(os.path.dirname(os.path.abspath(to)), exist_ok=True)
    shutil.copyfile(path, to + '.part')
    os.replace(to + '.part', to)


def main(folder, path, log=None):
    crates = listing.listed(folder)
    name = next(x for x, crate in crates.items() if crate.is_static)
    if log and not proved(log, listing.below(crates, name)):
        return 'a library below is not proved'
    prover, sources = Prover(crates, folder), Sources(crates[name], os.path.join(folder, 'crates', name))
    there, said = kept(prover, sources), 'an earlier run built it'
    if not os.path.exists(there):
        said = build(prover, sources, there)
    if os.path.exists(there):
        put(there, path)
    return said


if __name__ == '__main__':
    print(main(*sys.argv[1:]))
    print('1 passed, 0 failed' if os.path.exists(sys.argv[2]) else '0 passed, 1 failed')
