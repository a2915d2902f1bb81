"""Runs the examples of docs/BINDINGS.md. Programs are made in a folder, in C with the flags of pkg-config, in Rust over
the package that is in its folder rust/."""
import os
import re
import shutil
import subprocess
import sys
from tests.support import ROOT

NAMES = 'words.c', 'words.py', 'main.rs'
EXAMPLE = re.compile(r'`(words\.c|words\.py|main\.rs)`:\n\n((?:    .*\n|\n)+)It prints:\n\n((?:    .*\n)+)')


def code(block):
    return re.sub('^    ', '', block, flags=re.M)


def run(*words, **more):
    return subprocess.run(words, stdout=subprocess.PIPE, encoding='utf-8', check=True, **more).stdout


def printed(name, text, folder, flags):
    """What an example with this code prints."""
    path = os.path.join(folder, name)
    with open(path, 'w', encoding='utf-8') as file:
        file.write(text)
    if name == 'words.c':
        run('cc', '-std=c11', '-Wall', '-Wextra', '-Wpedantic', '-Werror', '-o', path + '.run', path, *flags)
        return run(path + '.run')
    if name == 'words.py':
        place = dict(os.environ, PYTHONPATH=os.path.join(folder, 'python', 'packages'))
        return run(sys.executable, '-B', path, env=place)
    crate = os.path.join(folder, 'example')
    os.makedirs(os.path.join(crate, 'src'))
    shutil.copy(path, os.path.join(crate, 'src'))
    with open(os.path.join(crate, 'Cargo.toml'), 'w', encoding='utf-8') as file:
        file.write('[package]\nname = "example"\nversion = "0.1.0"\nedition = "2021"\n\n[dependencies]\n'
                   'patricia = { path = "../rust" }\n')
    place = dict(os.environ, CARGO_TARGET_DIR=os.path.join(folder, 'target', 'example'))
    return run('cargo', 'run', '--offline', '--quiet', cwd=crate, env=place)


def examples():
    """Each example's name, its code, and what it prints."""
    with open(os.path.join(ROOT, 'docs', 'BINDINGS.md'), encoding='utf-8') as file:
        return {name: (code(block), code(wanted)) for name, block, wanted in EXAMPLE.findall(file.read())}
