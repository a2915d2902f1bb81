#!/usr/bin/env python3
"""Writes the packages of a proved commit into dist/, with their checksums.

    packaging/dist.py [--to FOLDER]                     of what the gate built (.ci/run keeps it in out/gate)
    packaging/dist.py [--to FOLDER] --gate FOLDER       of what the gate built in another clone, at this commit
    packaging/dist.py [--to FOLDER] --trial FOLDER      of any libpatricia_c.a, ptree and prefixes; each package
                                                        says that it is a trial, of which nothing is claimed

--kinds names some of the packages.

It refuses where files are changed or not committed, where no gate passed at this commit, and where mutants are due:
each was good at this commit, or at one since which no file has changed that its check reads. All is made from the
commit, in a folder of its own, so that equal commits and equal files give equal bytes.
"""
import argparse
import hashlib
import os
import shutil
import sys
import tempfile

sys.dont_write_bytecode = True
sys.path.insert(0, os.path.dirname(os.path.abspath(__file__)))
import gate  # noqa: E402
import packages  # noqa: E402
import tree  # noqa: E402
from tests import crates as listing  # noqa: E402
from tests.mutants import due  # noqa: E402

HERE = os.path.dirname(os.path.abspath(__file__))


def arguments(words):
    parser = argparse.ArgumentParser(description='Writes the packages of a proved commit into dist/.')
    parser.add_argument('--to', default=os.path.join(tree.ROOT, 'dist'), metavar='FOLDER')
    parser.add_argument('--gate', default=gate.FOLDER, metavar='FOLDER', help='what a gate kept')
    parser.add_argument('--kinds', nargs='+', default=packages.KINDS, choices=packages.KINDS, help='which packages')
    parser.add_argument('--trial', metavar='FOLDER', help='files of which nothing is claimed')
    asked = parser.parse_args(words)
    if 'debian' in asked.kinds and 'python' not in asked.kinds:
        parser.error('the packages for Debian have the wheel inside: --kinds python debian')
    return asked


def record(asked):
    """What is claimed of the files of which the packages are made. Raises NotProved."""
    commit, changed = tree.commit(), tree.changed()
    if commit is None:
        raise gate.NotProved('this is no checkout of git with a commit')
    if changed:
        raise gate.NotProved('these files differ from the commit: %s. Commit them first' % ', '.join(changed[:9]))
    if asked.trial:
        return {'commit': commit, 'sums': gate.sums(asked.trial)}
    names = due.names(tree.ROOT, listing.listed(tree.ROOT)) + due.untried(tree.ROOT)
    if names:
        raise gate.NotProved('these mutants, or those of these crates, are due: %s. tests/must_fail.py --record tries '
                             'them, and writes down that they are good' % ', '.join(names))
    return gate.proved(commit, asked.gate)


def told(claimed, version):
    """The text of PROVED."""
    with open(os.path.join(HERE, 'PROVED.txt' if 'line' in claimed else 'TRIAL.txt'), encoding='utf-8') as file:
        text = file.read()
    sums = '\n'.join('    %s  %s' % (of, name) for name, of in claimed['sums'].items())
    return text.format(**{**claimed, 'version': version, 'sums': sums})


def main(words):
    asked = arguments(words)
    refuse_others(asked.to)
    try:
        claimed = record(asked)
    except (gate.NotProved, FileNotFoundError) as error:
        sys.exit('make dist: %s.' % error)
    os.umask(0o022)
    with tempfile.TemporaryDirectory(prefix='patricia-') as room:
        source = os.path.join(room, 'source')
        tree.export(source)
        version = tree.version(source)
        with open(os.path.join(source, 'PROVED'), 'w', encoding='utf-8') as file:
            file.write(told(claimed, version))
        made = packages.Making(room, source, os.path.abspath(asked.trial or asked.gate), version, tree.epoch())
        made.make(asked.kinds)
        write(made.out, asked.to)


def refuse_others(to):
    """Ends where a folder has other files than packages, since it is emptied."""
    if os.path.isdir(to) and os.listdir(to) and not os.path.exists(os.path.join(to, 'SHA256SUMS')):
        sys.exit('make dist: %s has other files than packages' % to)


def write(folder, to):
    """Puts the packages in their place, with their checksums, and names them with their sizes."""
    names, sums = sorted(os.listdir(folder)), ''
    shutil.rmtree(to, ignore_errors=True)
    os.makedirs(to)
    for name in names:
        path = os.path.join(folder, name)
        with open(path, 'rb') as file:
            sums += '%s  %s\n' % (hashlib.sha256(file.read()).hexdigest(), name)
        shutil.move(path, os.path.join(to, name))
        print('%10d  %s' % (os.path.getsize(os.path.join(to, name)), name))
    with open(os.path.join(to, 'SHA256SUMS'), 'w', encoding='utf-8') as file:
        file.write(sums)


if __name__ == '__main__':
    main(sys.argv[1:])
