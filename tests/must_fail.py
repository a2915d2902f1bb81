#!/usr/bin/env python3
"""Tries the mutants of crates/*/must-fail, each of which must leave open a goal of its function.

    tests/must_fail.py [--record]            those that are due (tests/mutants/due.py says which)
    tests/must_fail.py [--record] --all      those of all crates
    tests/must_fail.py [--record] CRATE..    those of the crates named
    tests/must_fail.py CRATE/EDIT..          the ones named

With --record, packaging/mutants.json says of which crates each was good. A crate is due until it does.

An edit names a goal, which has to fail by its meaning, and not because a proof names what the edit took away or
replaced. That refuses the edit where the prover finds values at which the goal is false, or someone read why it is:
that no proof is found may be so of a right body, too.

A function is proved from its own code and from the promises of those that it calls. So an edit of code opens goals of
its own function alone, and one check tries edits of many functions. An edit that opens no goal there is tried by
itself, and so is one of what others rest on, and one of a function that calls what another edit of the check turns.
Each line of a crate's code that a comment 'refused:' holds is tried too: as code, it breaks the rules of borrows.

The libraries are those that rt left in crates/*/out, here or in the folder '--built'. The last line sums all:
'N passed, M failed'.
"""
import argparse
import os
import sys
import tempfile

sys.path.insert(0, os.path.dirname(os.path.dirname(os.path.abspath(__file__))))
from tests import crates as listing  # noqa: E402
from tests.mutants import due  # noqa: E402
from tests.mutants.checks import Prover  # noqa: E402
from tests.mutants.edits import Sources  # noqa: E402
from tests.mutants.running import READ, REFUTED, Work, done  # noqa: E402


def arguments(words):
    parser = argparse.ArgumentParser(description='Tries the mutants of crates/*/must-fail.')
    parser.add_argument('--all', action='store_true', help='those of all crates')
    parser.add_argument('--record', action='store_true', help='says in a file of which crates each was good')
    parser.add_argument('--built', metavar='FOLDER', help='where the libraries lie in crates/*/out')
    parser.add_argument('names', nargs='*', metavar='CRATE[/EDIT]')
    asked = parser.parse_args(words)
    if asked.record and any('/' in x for x in asked.names):
        parser.error('--record is of crates')
    return asked


def chosen(names, root, crates):
    """The sources of crates, each with the edits to try, by the names of crates and edits."""
    for name in dict.fromkeys(x.split('/')[0] for x in names):
        if name not in crates:
            sys.exit('no crate of crates.txt: ' + name)
        sources = Sources(crates[name], os.path.join(root, 'crates', name))
        edits = sources.edits()
        yield sources, [x for x in edits if name in names or '%s/%s' % (name, x.name.removesuffix('.edit')) in names]


def main(words=None, root=listing.ROOT):
    """Does what the words ask of a repository."""
    asked = arguments(words)
    crates = listing.listed(root)
    names = asked.names or (crates if asked.all else due.names(root, crates))
    prover = Prover(crates, asked.built or root)
    with tempfile.TemporaryDirectory(prefix='must-fail-') as room:
        told = done([Work(*of, prover, room) for of in chosen(names, root, crates)])
    bad = [x for x in told if not x.result]
    if asked.record:
        results = {x: [y.result for y in told if y.crate == x] for x in names if x in crates}
        due.record(root, {x: (of.count(REFUTED), of.count(READ)) for x, of in results.items() if None not in of})
    counts = [sum(x.result == word for x in told) for word in (REFUTED, READ)]
    print('%d are shown false by values, and of %d someone read why they are false' % tuple(counts))
    # that nothing is due is one thing that passed
    good = len(told) - len(bad) or not asked.names and not told
    print(*(x.line for x in bad), '%d passed, %d failed' % (good, len(bad)), sep='\n')
    return 1 if bad or not good else 0


if __name__ == '__main__':
    sys.exit(main())
