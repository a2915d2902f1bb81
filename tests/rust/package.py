"""The package of rust/ in a copy, since cargo and the eraser leave files beside it."""
import os
import re
import shutil
import subprocess
import sys
from tests.support import ROOT

sys.path.insert(0, os.path.join(ROOT, 'packaging'))
from packages import published  # noqa: E402

# Where Debian's packages librust-serde-dev and librust-serde-json-dev lay the crates that cargo asks for.
REGISTRY = '/usr/share/cargo/registry'
SOURCE = ['--config', 'source.crates-io.replace-with="debian"', '--config', 'source.debian.directory="%s"' % REGISTRY]


def has_serde():
    """Whether Debian's crates of serde are installed."""
    names = os.listdir(REGISTRY) if os.path.isdir(REGISTRY) else []
    return all(any(name.startswith(crate) for name in names) for crate in ('serde-1', 'serde_derive-1', 'serde_json-1'))


def copy(to):
    """Copies the package without what cargo and the eraser made there. Where Debian's crates are installed, what cargo
    finds in place of serde goes."""
    shutil.copytree(os.path.join(ROOT, 'rust'), to, ignore=shutil.ignore_patterns('target', 'proved', 'proved.new'))
    if has_serde():
        os.remove(os.path.join(to, 'Cargo.lock'))
        path = os.path.join(to, 'Cargo.toml')
        with open(path, encoding='utf-8') as file:
            manifest = file.read()
        with open(path, 'w', encoding='utf-8') as file:
            file.write(published(manifest))


def erase(package):
    """Erases the sources of this checkout into a package."""
    script = os.path.join(ROOT, 'packaging', 'eraser', 'erase.py')
    subprocess.run([sys.executable, '-B', script, '--to', proved(package)], check=True, stdout=subprocess.DEVNULL)


def proved(package):
    """The folder of the erased sources in a package."""
    return os.path.join(package, 'src', 'proved')


def show_examples(package):
    """Makes tests of the examples in the comments of the erased sources, which need the workbench."""
    for folder, _, names in os.walk(proved(package)):
        for path in [os.path.join(folder, name) for name in names if name.endswith('.rs')]:
            with open(path, encoding='utf-8') as file:
                text = file.read()
            with open(path, 'w', encoding='utf-8') as file:
                file.write(re.sub(r'(//[/!] )```text$', r'\1```', text, flags=re.M))


def cargo(package, words, room, workbench=False, rustc='', rustdoc='', output=False, data=None, **env):
    """Runs cargo offline, with its files in a room; with the configuration of the workbench, or with more flags of the
    compilers, if asked. What it writes is returned if asked."""
    source = SOURCE if has_serde() else []
    flags = '--cfg workbench' if workbench else rustc
    kind = 'workbench' if workbench else 'strict' if rustc else 'plain'
    env = {**os.environ, 'CARGO_TARGET_DIR': os.path.join(room, 'target', kind), 'RUSTFLAGS': flags,
           'RUSTDOCFLAGS': rustdoc or flags, 'CARGO_PROFILE_DEV_DEBUG': '0', **env}
    pipes = {'stdout': subprocess.PIPE, 'stderr': subprocess.STDOUT, 'encoding': 'utf-8'} if output else {}
    given = {'stdin': subprocess.DEVNULL} if data is None else {'input': data}
    return subprocess.run(['cargo', words[0], '--offline', *source, *words[1:]], cwd=package, env=env, check=False,
                          **pipes, **given)
