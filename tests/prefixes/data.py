#!/usr/bin/env python3
"""Writes the lists of tests/prefixes/data from files of Debian's packages: data.py [ROOT [FOLDER]]. ROOT is the folder
below which the packages wamerican-small, python3-jieba, python3-phonenumbers, unicode-data and
webext-ublock-origin-firefox are unpacked: '/' where they are installed. Their licences are in
tests/prefixes/data/SOURCES.md."""

import glob
import os
import re
import sys

HERE = os.path.dirname(os.path.abspath(__file__))
HOST = re.compile(r'[a-z0-9-]+(\.[a-z0-9-]+)*\.[a-z][a-z0-9-]+')
# A word of this frequency or more is taken from the Chinese dictionary.
FREQUENT = 200
# Names are taken of the characters below this one.
CHARACTERS_END = 0x3000


def lines(root, pattern):
    """The lines of the first file of a package."""
    with open(sorted(glob.glob(os.path.join(root, pattern)))[0], encoding='utf-8') as file:
        return file.read().split('\n')[:-1]


def carriers(root):
    """Prefixes of telephone numbers, with the company that has the numbers."""
    sys.path.insert(0, os.path.join(root, 'usr/lib/python3/dist-packages'))
    from phonenumbers.carrierdata import CARRIER_DATA
    return ['+%s\t%s' % (prefix, names['en']) for prefix, names in sorted(CARRIER_DATA.items()) if 'en' in names]


def hosts(root):
    """Hosts that have spread malicious software."""
    pattern = 'usr/share/mozilla/extensions/*/*/assets/thirdparties/urlhaus-filter/urlhaus-filter-online.txt'
    return [line for line in lines(root, pattern) if HOST.fullmatch(line)]


def chinese(root):
    """Frequent Chinese words."""
    rows = (line.split(' ') for line in lines(root, 'usr/lib/python3/dist-packages/jieba/dict.txt'))
    return [row[0] for row in rows if len(row) == 3 and int(row[1]) >= FREQUENT]


def characters(root):
    """Names of characters, with their numbers."""
    rows = (line.split(';') for line in lines(root, 'usr/share/unicode/UnicodeData.txt'))
    return ['%s\tU+%s' % (name, number) for number, name, *_ in rows
            if not name.startswith('<') and int(number, 16) < CHARACTERS_END]


def main():
    root = sys.argv[1] if len(sys.argv) > 1 else '/'
    folder = sys.argv[2] if len(sys.argv) > 2 else os.path.join(HERE, 'data')
    made = {
        'carriers': carriers(root),
        'hosts': hosts(root),
        'english': lines(root, 'usr/share/dict/american-english-small'),
        'chinese': chinese(root),
        'characters': characters(root),
    }
    for name, rows in made.items():
        with open(os.path.join(folder, name), 'w', encoding='utf-8') as file:
            file.writelines(row + '\n' for row in rows)
        print('%s: %d lines' % (name, len(rows)))


main()
