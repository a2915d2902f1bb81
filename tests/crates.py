"""The crates of crates.txt, and what they stand on.

crates.txt has a line 'NAME: USED ..' for each crate, or 'NAME staticlib: USED ..' for a static
library; '#' begins a comment. What a crate uses is another crate of the file, or a library of the
toolchain.
"""
import os
import subprocess
from typing import NamedTuple

ROOT = os.path.dirname(os.path.dirname(os.path.abspath(__file__)))


class Crate(NamedTuple):
    """A line of crates.txt."""
    name: str
    kinds: tuple
    uses: tuple

    @property
    def is_static(self):
        """Whether it is a static library, for programs in C."""
        return 'staticlib' in self.kinds


def listed(root=ROOT):
    """The crates of a repository by their names, in the order of its crates.txt."""
    with open(os.path.join(root, 'crates.txt'), encoding='utf-8') as file:
        lines = [x.partition('#')[0].partition(':') for x in file.read().split('\n')]
    heads = [(head.split(), uses.split()) for head, _, uses in lines if head.strip()]
    return {name: Crate(name, tuple(kinds), tuple(uses)) for (name, *kinds), uses in heads}


def below(crates, *names):
    """The names of the crates on which these stand, without these, each after those it uses."""
    found = {}
    for name in names:
        for used in [x for x in crates[name].uses if x in crates]:
            found.update(dict.fromkeys([*below(crates, used), used]))
    return [x for x in found if x not in names]


def above(crates, *names):
    """The names of the crates that stand on one of these, each after those it uses."""
    found = [x for x in crates if {*below(crates, x)} & {*names} and x not in names]
    return sorted(found, key=lambda x: len(below(crates, x)))


def kit():
    """The folder of the toolchain, where its page for a first reader lies."""
    page = subprocess.run(['rt', 'doc'], stdout=subprocess.PIPE, encoding='utf-8', check=True)
    return os.path.dirname(page.stdout.strip())


def processors():
    """The number of processors that this process may use: under 'taskset -c 0,1' it is two."""
    return len(os.sched_getaffinity(0))
