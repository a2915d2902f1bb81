#!/usr/bin/env python3
"""Proves crates with all that they depend on, over what earlier runs kept in out/, and builds the libraries.

    tests/build.py CRATE..            crates of crates.txt
    tests/build.py --above CRATE..    and the crates that depend on these

A crate is proved as soon as those below it are built, several side by side. A library on which others wait has all
processors, a crate with none above it one. What each takes by the clock is named at its end.
"""
import argparse
import os
import subprocess
import sys
import threading
import time
from concurrent.futures import ThreadPoolExecutor

sys.path.insert(0, os.path.dirname(os.path.dirname(os.path.abspath(__file__))))
from tests import crates as repository  # noqa: E402


def prove(name, jobs):
    """Proves a crate, builds it if it is a library, and returns whether it is proved and what the check says."""
    folder = os.path.join(repository.ROOT, 'crates', name)
    verb = 'check' if os.path.exists(folder + '/src/main.rt') else 'lib'
    ran = subprocess.run(['rt', verb, '--jobs', str(jobs)], cwd=folder, stdin=subprocess.DEVNULL,
                         stdout=subprocess.PIPE, stderr=subprocess.STDOUT, encoding='utf-8', errors='replace')
    return ran.returncode == 0, ran.stdout


def build(crates, names):
    """Builds these crates, which are in an order in which each comes after those below it. Whether all are proved."""
    waited_for = {used for name in names for used in crates[name].uses}
    processors, runs, printing = repository.processors(), {}, threading.Lock()

    def built(name):
        if not all([runs[used].result() for used in crates[name].uses if used in runs]):
            return False
        began = time.monotonic()
        is_proved, said = prove(name, processors if name in waited_for else 1)
        with printing:
            if not is_proved:
                print(said)
            word = 'proved' if is_proved else 'NOT PROVED'
            print('%s %s after %d seconds' % (name, word, time.monotonic() - began), flush=True)
        return is_proved

    # those below are handed in first, so that what waits never holds up what it waits for
    with ThreadPoolExecutor(processors) as pool:
        for name in names:
            runs[name] = pool.submit(built, name)
    return all(run.result() for run in runs.values())


def main():
    parser = argparse.ArgumentParser(description='Proves crates with all that they depend on.')
    parser.add_argument('--above', action='store_true', help='and those that depend on them')
    parser.add_argument('names', nargs='+', metavar='CRATE')
    asked = parser.parse_args()
    crates = repository.listed()
    unknown = [name for name in asked.names if name not in crates]
    if unknown:
        sys.exit('no crate of crates.txt: ' + ' '.join(unknown))
    wanted = asked.names + asked.above * repository.above(crates, *asked.names)
    return 0 if build(crates, [*dict.fromkeys([*repository.below(crates, *wanted), *wanted])]) else 1


if __name__ == '__main__':
    sys.exit(main())
