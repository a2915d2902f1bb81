#!/usr/bin/env python3
"""Tests the Rust package with the oldest compiler that it names, for 64 bits and for 32, by hand:

    tests/rust/oldest.py [FOLDER]

The compiler, Rust 1.85, is unpacked from packages of Debian 12, which `apt-get download` fetches into FOLDER or a new
folder; nothing is installed. That for 32 bits needs the architecture i386 (`dpkg --add-architecture i386`) and
gcc-multilib.
"""
import glob
import os
import subprocess
import sys
import tempfile

ROOT = os.path.dirname(os.path.dirname(os.path.dirname(os.path.abspath(__file__))))
sys.path.insert(0, ROOT)
sys.dont_write_bytecode = True
from tests.rust import package  # noqa: E402

RELEASE = 'bookworm'
PACKAGES = 'rustc-web', 'libstd-rust-web-1.85', 'libstd-rust-web-dev', 'libllvm19'
OF_32_BITS = 'libstd-rust-web-1.85:i386', 'libstd-rust-web-dev:i386'
TARGETS = 'x86_64-unknown-linux-gnu', 'i686-unknown-linux-gnu'
WRAPPER = '#!/bin/sh\nLD_LIBRARY_PATH=%s/usr/lib/x86_64-linux-gnu exec %s/usr/bin/%s --sysroot %s/usr "$@"\n'


def unpacked(folder):
    """The compiler, in a folder: the paths of `rustc` and `rustdoc`."""
    if not glob.glob(os.path.join(folder, '*.deb')):
        names = ['%s/%s' % (name, RELEASE) for name in PACKAGES + OF_32_BITS]
        subprocess.run(['apt-get', 'download', *names], cwd=folder, check=True)
    root = os.path.join(folder, 'root')
    for path in glob.glob(os.path.join(folder, '*.deb')):
        subprocess.run(['dpkg', '-x', path, root], check=True)
    paths = []
    for name in 'rustc', 'rustdoc':
        paths.append(os.path.join(folder, name))
        with open(paths[-1], 'w', encoding='utf-8') as file:
            file.write(WRAPPER % (root, root, name, root))
        os.chmod(paths[-1], 0o755)
    return paths


def main(words):
    folder = os.path.abspath(words[0]) if words else tempfile.mkdtemp(prefix='patricia-')
    os.makedirs(folder, exist_ok=True)
    rustc, rustdoc = unpacked(folder)
    print(subprocess.run([rustc, '--version'], stdout=subprocess.PIPE, encoding='utf-8', check=True).stdout, end='')
    with tempfile.TemporaryDirectory(prefix='patricia-') as room:
        made = os.path.join(room, 'rust')
        package.copy(made)
        package.erase(made)
        for target in TARGETS:
            ran = package.cargo(made, ['test', '--quiet', '--target', target], room, RUSTC=rustc, RUSTDOC=rustdoc)
            if ran.returncode:
                sys.exit('%s: FAILED' % target)
            print('%s: ok' % target)


if __name__ == '__main__':
    main(sys.argv[1:])
