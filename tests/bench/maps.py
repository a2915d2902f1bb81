"""Times the Python package beside dict and what is installed of sortedcontainers, datrie and pygtrie.

    python3 tests/bench/keys.py titles 200000 1 | PYTHONPATH=FOLDER python3 tests/bench/maps.py [KIND ...]

FOLDER has the package as setup.py builds it. The entries of dict are sorted. Each kind runs in a process of its own,
three times, in turn; a figure is the least of the three, of processor time. KIND is dict, SortedDict, datrie, pygtrie
or patricia; without one all run.
"""
import importlib
import importlib.util
import os
import pickle
import subprocess
import sys
import time

MODULES = {'dict': 'builtins', 'SortedDict': 'sortedcontainers', 'datrie': 'datrie', 'pygtrie': 'pygtrie',
           'patricia': 'patricia'}
TYPES = {'dict': 'dict', 'SortedDict': 'SortedDict', 'datrie': 'Trie', 'pygtrie': 'CharTrie',
         'patricia': 'StringPatriciaMap'}
RUNS, QUERIES = 3, 200


def empty(kind):
    """A map without keys."""
    made = getattr(importlib.import_module(MODULES[kind]), TYPES[kind])
    return made(map(chr, range(33, 127))) if kind == 'datrie' else made()


def under(kind, made, prefix):
    """The number of entries under a prefix, each of which is made."""
    if kind == 'SortedDict':
        return sum(1 for _ in ((key, made[key]) for key in made.irange(prefix, prefix + '\U0010ffff')))
    if kind == 'patricia':
        return sum(1 for _ in made.items(prefix=prefix))
    entries = made.items(prefix) if kind == 'datrie' or made.has_node(prefix) else ()
    return sum(1 for _ in entries)


class Clock:
    """Prints what a block takes."""

    def __init__(self, line, count):
        self.line, self.count = line, count

    def __enter__(self):
        self.start = time.process_time()

    def __exit__(self, *_):
        print('%s\t%g' % (self.line, (time.process_time() - self.start) * 1e9 / self.count))


def measure(kind, keys):
    """Prints the figures of one kind, in nanoseconds."""
    made, count = empty(kind), len(keys)
    again = [key[:1] + key[1:] for key in keys]
    with Clock('set an item', count):
        for number, key in enumerate(keys):
            made[key] = number
    with Clock('get', count):
        for key in again:
            made[key]
    with Clock('items, an entry', count):
        for _ in sorted(made.items()) if kind == 'dict' else made.items():
            pass
    if kind != 'dict':
        prefixes = [key[:8] for key in keys[::count // QUERIES]]
        with Clock('entries under 8 characters, a query', len(prefixes)):
            for prefix in prefixes:
                under(kind, made, prefix)
    if kind in ('dict', 'SortedDict', 'patricia'):
        with Clock('pickle, an entry', count):
            data = pickle.dumps(made, pickle.HIGHEST_PROTOCOL)
        with Clock('unpickle, an entry', count):
            pickle.loads(data)


def main():
    if sys.argv[1:2] == ['--one']:
        return measure(sys.argv[2], sys.stdin.read().split('\n')[:-1])
    keys = sys.stdin.buffer.read()
    kinds = [kind for kind in sys.argv[1:] or MODULES if importlib.util.find_spec(MODULES[kind])]
    figures = {}
    for _ in range(RUNS):
        for kind in kinds:
            words = [sys.executable, '-B', os.path.abspath(__file__), '--one', kind]
            said = subprocess.run(words, input=keys, stdout=subprocess.PIPE, check=True).stdout.decode()
            for line, figure in (row.split('\t') for row in said.splitlines()):
                figures.setdefault(line, {}).setdefault(kind, []).append(float(figure))
    print('| ns | %s |\n|---|%s' % (' | '.join(kinds), '---|' * len(kinds)))
    for line, row in figures.items():
        print('| %s | %s |' % (line, ' | '.join('%.0f' % min(row[kind]) if kind in row else '' for kind in kinds)))
    return None


if __name__ == '__main__':
    main()
