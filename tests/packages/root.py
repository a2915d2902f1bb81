#!/usr/bin/env python3
"""Installs the packages of dist/ into an empty Debian, which has no kit, and tries them there.

    tests/packages/root.py [--dist FOLDER] [--base FILE]

The Debian is made by debootstrap, or unpacked from FILE, where it is kept. Wants root, debootstrap, and for the first
time Debian's archive. There: the program of docs/BINDINGS.md in C, by pkg-config, with the shared library and without;
those in Python, with Debian's package and with the wheel; the one in Rust, by cargo, without a registry; `prefixes`
and `man`. Then the packages are purged, and no file of theirs is left. What is left out is said.
"""
import argparse
import os
import shutil
import subprocess
import sys
import tempfile

ROOT = os.path.dirname(os.path.dirname(os.path.dirname(os.path.abspath(__file__))))
sys.path.insert(0, ROOT)
sys.dont_write_bytecode = True
from tests.bindings import documented  # noqa: E402

RELEASE = 'bookworm'
# its compiler of Rust is the oldest that the crate compiles with
INCLUDED = 'gcc,libc6-dev,pkg-config,python3,man-db,bash-completion,cargo-web,rustc-web'
# how this ends where no empty Debian can be made
UNABLE = 3
PURGED = 'libpatricia0 libpatricia-dev python3-patricia patricia-tools'
# what Debian's tools write there beside the files of packages
OTHER = '/proc', '/sys', '/dev', '/tmp', '/srv', '/var/cache', '/var/lib/dpkg', '/var/log', '/etc/ld.so.cache'
# where all is tried there, and what programs take for the user's folder
PLACE = '/srv/try'
CARGO = '[package]\nname = "example"\nversion = "0.1.0"\nedition = "2021"\n\n' \
        '[dependencies]\npatricia = { path = "../crate" }\n'


class Failed(Exception):
    """What did not do in the root what it has to."""


def unable(why):
    """Ends: nothing was tried."""
    print('no empty Debian: ' + why, file=sys.stderr)
    sys.exit(UNABLE)


class Root:
    """An empty Debian in a folder."""

    def __init__(self, folder):
        self.folder = folder

    def path(self, *parts):
        return os.path.join(self.folder, *parts)

    def run(self, script):
        """Runs a script of the shell there, in PLACE, and returns what it writes."""
        words = ['unshare', '--mount', '--pid', '--fork', '--mount-proc=' + self.path('proc'), 'chroot', self.folder,
                 'env', '-i', 'PATH=/usr/sbin:/usr/bin:/sbin:/bin', 'HOME=' + PLACE, 'LC_ALL=C.UTF-8',
                 'DEBIAN_FRONTEND=noninteractive', 'sh', '-ec', 'cd %s && %s' % (PLACE, script)]
        ran = subprocess.run(words, stdin=subprocess.DEVNULL, stdout=subprocess.PIPE, stderr=subprocess.STDOUT,
                             encoding='utf-8', errors='replace', check=False)
        if ran.returncode:
            raise Failed('%s: %s' % (script, ran.stdout[-3000:]))
        return ran.stdout

    def prints(self, script, wanted):
        said = self.run(script)
        if said != wanted:
            raise Failed('%s: printed %r, and not %r' % (script, said[:2000], wanted[:2000]))
        print('ok   ' + script)

    def files(self):
        """The files there, but for those that are no package's."""
        found = set()
        for at, folders, names in os.walk(self.folder):
            folders[:] = [x for x in folders if not os.path.join(at, x)[len(self.folder):].startswith(OTHER)]
            found |= {os.path.join(at, x)[len(self.folder):] for x in names}
        return {x for x in found if not x.startswith(OTHER)}


def base(folder, kept):
    """Makes the Debian, or unpacks the one that was kept."""
    if not kept or not os.path.exists(kept):
        words = ['debootstrap', '--variant=minbase', '--include=' + INCLUDED, RELEASE, folder]
        if subprocess.run(words, stdout=subprocess.DEVNULL, check=False).returncode:
            unable('debootstrap cannot make one here')
        if kept:
            subprocess.run(['tar', '-C', folder, '-cf', kept + '.new', '.'], check=True)
            os.rename(kept + '.new', kept)
        return
    os.makedirs(folder)
    subprocess.run(['tar', '-C', folder, '-xf', kept], check=True)


def fill(root, dist):
    """Puts the packages, the examples and the lists there, into PLACE."""
    place = root.path(PLACE.lstrip('/'))
    shutil.copytree(dist, place)
    for name, (code, _) in documented.examples().items():
        folder = os.path.join(place, 'example', 'src') if name == 'main.rs' else place
        os.makedirs(folder, exist_ok=True)
        with open(os.path.join(folder, name), 'w', encoding='utf-8') as file:
            file.write(code)
    with open(os.path.join(place, 'example', 'Cargo.toml'), 'w', encoding='utf-8') as file:
        file.write(CARGO)


def tried(root):
    """Installs the packages and tries each. What they do is compared with what the pages say."""
    printed = {name: wanted for name, (_, wanted) in documented.examples().items()}
    if os.path.exists(root.path('opt', 'rattle')):
        raise Failed('the kit is there')
    before = root.files()
    root.run('sha256sum -c SHA256SUMS && dpkg -i *.deb')
    flags = '$(pkg-config --cflags --libs patricia)'
    root.prints('cc words.c %s -o words && ./words' % flags, printed['words.c'])
    root.prints('cc -static words.c %s -o words && ./words' % flags, printed['words.c'])
    root.prints('python3 words.py', printed['words.py'])
    root.prints("printf '/api/users/7\\n' | prefixes route /usr/share/doc/patricia-tools/examples/routes",
                '/api/users\tusers\n')
    root.prints("printf 'insert\\tfoo\\t1\\nget\\tfoo\\n' | ptree bytes", 'none\nsome 1\n')
    for words in 'prefixes', 'ptree', '3 patricia', '3 patricia_insert':
        root.prints('man -P cat %s | grep -cx NAME' % words, '1\n')
    root.prints("bash -ic 'source /usr/share/bash-completion/completions/prefixes; complete -p prefixes' 2> /dev/null",
                'complete -F _prefixes prefixes\n')
    root.run('mkdir crate && tar xf *.crate -C crate --strip-components=1')
    root.prints('cd example && cargo run --offline --quiet', printed['main.rs'])
    root.run('dpkg -P %s && rm -rf words' % PURGED)
    left = sorted(root.files() - before)
    if left:
        raise Failed('left behind: ' + ' '.join(left))
    print('ok   purged: nothing is left')
    root.run('mkdir site && python3 -m zipfile -e *.whl site')
    root.prints('PYTHONPATH=site python3 words.py', printed['words.py'])


def main(words):
    parser = argparse.ArgumentParser(description='Tries the packages in an empty Debian.')
    parser.add_argument('--dist', default=os.path.join(ROOT, 'dist'), metavar='FOLDER')
    parser.add_argument('--base', metavar='FILE', help='where the empty Debian is kept, as a tar')
    asked = parser.parse_args(words)
    if not os.path.exists(os.path.join(asked.dist, 'SHA256SUMS')):
        sys.exit('there are no packages in %s: make dist writes them' % asked.dist)
    missing = [tool for tool in ('debootstrap', 'unshare', 'chroot') if not shutil.which(tool)]
    if os.geteuid() or missing:
        unable('this wants root, and ' + ' '.join(missing or ['debootstrap']))
    if subprocess.run(['unshare', '--mount', '--pid', '--fork', 'true'], check=False).returncode:
        unable('unshare is not allowed here')
    with tempfile.TemporaryDirectory(prefix='patricia-') as room:
        root = Root(os.path.join(room, 'root'))
        base(root.folder, asked.base)
        fill(root, asked.dist)
        try:
            tried(root)
        except Failed as error:
            sys.exit('FAILED %s' % error)
    print('left out: the packages for Rattle and of the sources, which want the kit, and the completions of zsh')


if __name__ == '__main__':
    main(sys.argv[1:])
