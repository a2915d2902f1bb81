#!/usr/bin/env python3
"""Unpacks the package for Rattle into an empty repository, as docs/INSTALL.md says, and proves and runs a crate of ten
lines over `patricia_tree` there.

    tests/packages/rattle.py [--dist FOLDER]

Wants the kit's `rt` on the path. The libraries are proved first, in some 40 minutes.
"""
import argparse
import os
import re
import subprocess
import sys
import tempfile
import time

ROOT = os.path.dirname(os.path.dirname(os.path.dirname(os.path.abspath(__file__))))
PROGRAM = '''//! A map of one word.
#![tactic(auto)]

use patricia_tree::PatriciaMap;

fn main(rt: HostRuntime) -> anyhow::Result<()> {
    let mut map: PatriciaMap<u32> = PatriciaMap::new(rt.alloc());
    map.insert(b"foo".as_slice(), 1)?;
    println!(rt; "{:?}", map.get(b"foo".as_slice()))?;
    Ok(())
}
'''
WANTED = 'Some(1)\n'


def commands():
    """The commands of docs/INSTALL.md for Rattle."""
    with open(os.path.join(ROOT, 'docs', 'INSTALL.md'), encoding='utf-8') as file:
        part = file.read().partition('## In Rattle\n')[2].partition('\n## ')[0]
    return re.findall(r'^    (.*)$', part, re.M)


def main(words):
    parser = argparse.ArgumentParser(description='Proves a crate over the package for Rattle.')
    parser.add_argument('--dist', default=os.path.join(ROOT, 'dist'), metavar='FOLDER')
    dist = os.path.abspath(parser.parse_args(words).dist)
    with tempfile.TemporaryDirectory(prefix='patricia-') as place:
        for name in os.listdir(dist):
            os.symlink(os.path.join(dist, name), os.path.join(place, name))
        subprocess.run(['sh', '-ec', '\n'.join(commands())], cwd=place, check=True)
        crate = os.path.join(place, 'crates', 'app')
        os.makedirs(crate + '/src')
        with open(crate + '/src/main.rt', 'w', encoding='utf-8') as file:
            file.write(PROGRAM)
        with open(place + '/crates.txt', 'a', encoding='utf-8') as file:
            file.write('app: patricia_tree anyhow\n')
        began = time.monotonic()
        ran = subprocess.run(['rt', 'run'], cwd=crate, stdin=subprocess.DEVNULL, stdout=subprocess.PIPE,
                             stderr=subprocess.STDOUT, encoding='utf-8', errors='replace', check=False)
        print(ran.stdout)
        if ran.returncode or not ran.stdout.endswith(WANTED):
            sys.exit('FAILED: it has to be proved and to print %r' % WANTED)
        print('ok   a crate over patricia_tree is proved and run, in %d seconds' % (time.monotonic() - began))


if __name__ == '__main__':
    main(sys.argv[1:])
