#!/usr/bin/env python3
"""Keeps what the gate built once all passed, with its last line: the packages are made of it.

    packaging/gate.py commit                           prints the commit, or nothing where the checkout differs from it
    packaging/gate.py keep COMMIT COPY ARCHIVE LINE    keeps the library for C and the programs of COPY in out/gate
    packaging/gate.py                                  says what out/gate has

.ci/run calls the first two. A run on files that are not committed keeps nothing.
"""
import hashlib
import json
import os
import re
import shutil
import sys
import tempfile

sys.dont_write_bytecode = True
sys.path.insert(0, os.path.dirname(os.path.abspath(__file__)))
import tree  # noqa: E402
sys.path.insert(0, tree.ROOT)
from tests.mutants import due  # noqa: E402

FOLDER = os.path.join(tree.ROOT, 'out', 'gate')
ARCHIVE, PROGRAMS = 'libpatricia_c.a', ('ptree', 'prefixes')
FILES = (ARCHIVE, *PROGRAMS)
RECORD = 'record.json'


class NotProved(Exception):
    """Why nothing was proved that packages could be made of."""


def sums(folder):
    """The SHA-256 of each file that packages are made of."""
    found = {}
    for name in FILES:
        with open(os.path.join(folder, name), 'rb') as file:
            found[name] = hashlib.sha256(file.read()).hexdigest()
    return found


def keep(commit, copy, archive, line, folder=FOLDER):
    """Keeps what was built, in place of what an earlier run kept."""
    os.makedirs(os.path.dirname(folder), exist_ok=True)
    room = tempfile.mkdtemp(prefix='gate-', dir=os.path.dirname(folder))
    shutil.copy(archive, os.path.join(room, ARCHIVE))
    for name in PROGRAMS:
        shutil.copy(os.path.join(copy, 'crates', name, 'out', name), room)
    with open(os.path.join(room, RECORD), 'w', encoding='utf-8') as file:
        json.dump({'commit': commit, 'kit': due.kit(tree.ROOT), 'line': line, 'sums': sums(room)}, file, indent=1)
    os.chmod(room, 0o755)
    shutil.rmtree(folder, ignore_errors=True)
    os.rename(room, folder)


def proved(commit, folder=FOLDER):
    """What a gate kept of this commit. Raises NotProved where no gate passed, or one of another commit, or where a
    file is not as it was kept."""
    try:
        with open(os.path.join(folder, RECORD), encoding='utf-8') as file:
            record = json.load(file)
        found = sums(folder)
    except FileNotFoundError as error:
        raise NotProved('this commit is not proved: there is no %s. Run .ci/run, which keeps there what it built once '
                        'all passed' % os.path.relpath(error.filename, tree.ROOT)) from error
    if record['commit'] != commit:
        raise NotProved('this commit is not proved: the gate that passed here was of commit %.12s, and this is %.12s. '
                        'Run .ci/run' % (record['commit'], commit))
    if not re.fullmatch(r'[1-9]\d* passed, 0 failed', record['line']):
        raise NotProved('this commit is not proved: the last line of the gate was %r' % record['line'])
    for name, known in record['sums'].items():
        if found[name] != known:
            raise NotProved('%s in %s is not the file that the gate built. Run .ci/run' % (name, folder))
    return record


def main(words):
    if words == ['commit']:
        print(tree.commit() or '' if not tree.changed() else '')
    elif len(words) == 5 and words[0] == 'keep':
        if words[1]:
            keep(*words[1:])
    elif not words:
        try:
            print(json.dumps(proved(tree.commit()), indent=1))
        except NotProved as error:
            sys.exit(str(error))
    else:
        sys.exit(__doc__)


if __name__ == '__main__':
    main(sys.argv[1:])
