"""The random scripts of `ptree`, and what it must answer to the cases that were written by hand.

    python3 -B -m tests.oracle.make_cases tests/cases

The tests make the scripts when they run, each from a seed: for each kind of keys and each shape of SHAPES one of most
commands, KIND_SHAPE, a short one of all commands but those of tree bytes, KIND_two_maps, and for each shape of
WIRE_SHAPES one with `wire`, KIND_wires_SHAPE, one with `wire` and `reload`, KIND_reloads_SHAPE, and one of all commands,
KIND_wide_levels_SHAPE. The command writes for each NAME.in of the folder the answers NAME.out by model.py. A case with
a NAME.status is left as it is.
"""
import os
import random
import sys
from tests.oracle.model import answer
from tests.oracle.scripts import RELOAD_WEIGHTS, SHAPES, WIDE_WEIGHTS, WIRE_WEIGHTS, script, script_of_all

SEED = 15
SEED_OF_ALL = 14
SEED_OF_WIRES = 16
SEED_OF_RELOADS = 17
SEED_OF_WIDE_LEVELS = 18

# the shapes of keys over which trees are written, with the numbers of lines
WIRE_SHAPES = {'short': 120, 'nested': 80, 'long': 60}


def write(path, data):
    with open(path, 'wb') as file:
        file.write(data)


def read(path):
    with open(path, 'rb') as file:
        return file.read()


def random_scripts():
    """The random scripts, the same ones at each call: the name, the kind of keys and the lines of each."""
    rng, rng_of_all = random.Random(SEED), random.Random(SEED_OF_ALL)
    rng_of_wires, rng_of_reloads = random.Random(SEED_OF_WIRES), random.Random(SEED_OF_RELOADS)
    rng_of_wide_levels = random.Random(SEED_OF_WIDE_LEVELS)
    for kind in 'bytes', 'text', 'units':
        for shape in SHAPES:
            yield '%s_%s' % (kind, shape), kind, script(rng, kind, shape, 130 if shape == 'long' else 400)
        yield kind + '_two_maps', kind, script_of_all(rng_of_all, kind, 'short', 60)
        for shape, size in WIRE_SHAPES.items():
            for name, numbers, weights in (('wires', rng_of_wires, WIRE_WEIGHTS),
                                           ('reloads', rng_of_reloads, RELOAD_WEIGHTS),
                                           ('wide_levels', rng_of_wide_levels, WIDE_WEIGHTS)):
                yield '%s_%s_%s' % (kind, name, shape), kind, script_of_all(numbers, kind, shape, size, weights)


def main(folder):
    for name in sorted(os.listdir(folder)):
        path, end = os.path.splitext(os.path.join(folder, name))
        if end == '.in' and not os.path.exists(path + '.status'):
            has_words = os.path.exists(path + '.args')
            kind = read(path + '.args').decode().strip() if has_words else 'bytes'
            write(path + '.out', answer(kind, read(path + '.in')))


if __name__ == '__main__':
    main(*sys.argv[1:])
