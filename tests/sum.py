#!/usr/bin/env python3
"""Sums what passed and what failed of test runs, from their logs.

    tests/sum.py LOG..

A log says 'N passed, M failed' in a line of its own, or ends as a run of unittest does. One that says neither has
failed, and so has one in which nothing passed. Logs of runs that failed are printed whole, of each other one its last
lines. The last line is the sum: 'N passed, M failed'. Before it stands how many were skipped.
"""
import os
import re
import sys

COUNTED = re.compile(r'^(\d+) passed, (\d+) failed$', re.M)
RAN = re.compile(r'^Ran (\d+) tests? in .*\n\n(OK|FAILED)(.*)$', re.M)
PARTS = {'failures': 1, 'errors': 1, 'skipped': 0}


def counts(text):
    """How many tests of a log passed, failed and were skipped."""
    counted, ran, skipped = COUNTED.findall(text), RAN.search(text), 0
    if counted:
        passed, failed = map(int, counted[-1])
    elif ran:
        parts = {name: int(number) for name, number in re.findall(r'(\w+)=(\d+)', ran[3])}
        failed = sum(parts.get(name, 0) for name, counts_as in PARTS.items() if counts_as)
        passed = max(0, int(ran[1]) - sum(parts.get(name, 0) for name in PARTS))
        failed += ran[2] == 'FAILED' and not failed
        skipped = parts.get('skipped', 0)
    else:
        return 0, 1, 0
    return passed, failed + (not passed and not failed and not skipped), skipped


def main(paths):
    total = [0, 0, 0]
    for path in paths:
        with open(path, encoding='utf-8', errors='replace') as file:
            text = file.read().rstrip()
        passed, failed, skipped = counts(text)
        total = [total[0] + passed, total[1] + failed, total[2] + skipped]
        shown = text if failed else '\n'.join(text.split('\n')[-3:])
        print('== %s: %d passed, %d failed' % (os.path.basename(path), passed, failed), shown, sep='\n')
    print('%d skipped, since what they need is not installed' % total[2])
    print('%d passed, %d failed' % tuple(total[:2]))
    return 1 if total[1] or not total[0] else 0


if __name__ == '__main__':
    sys.exit(main(sys.argv[1:]))
