"""Makes each package from the files of a commit and from what was built of it."""
import datetime
import email.utils
import os
import shutil
import subprocess
import sys
import archives

sys.path.insert(0, os.path.dirname(os.path.dirname(os.path.abspath(__file__))))
from tests import crates as repository  # noqa: E402

# The interpreter of Debian's packages, for which setuptools and wheel are installed.
PYTHON = '/usr/bin/python3'
PARTS = 'src', 'specs', 'proofs'
FLAGS = '-ffile-prefix-map=%s=. -g0'
# What PROVED of the crate says besides.
ERASED = '''
The crate has the proved sources without their contracts, in src/proved, with the exceptions that the README of the
eraser lists (packaging/eraser of the repository). The checksums of these sources, and of the eraser:

%s'''
# Debian's list of changes, which wants a maintainer and a time.
CHANGELOG = '''patricia (%s) unstable; urgency=medium

  * CHANGELOG.md has the changes of this version.

 -- Wirohapu maintainers <maintainers@users.noreply.wirohapu.example>  %s
'''
# In this order. The packages for Debian have the wheel inside.
KINDS = 'source', 'rattle', 'rust', 'python', 'debian'


def published(manifest):
    """The manifest of the Rust package without its end, which is for builds in the repository."""
    return manifest.partition('\n# Only where this package is built by itself')[0]


class Making:
    """A room with `source`, the files of a commit, in which packages are made and put into `out`."""

    def __init__(self, room, source, built, version, epoch):
        self.room, self.source, self.built, self.version, self.epoch = room, source, built, version, epoch
        self.out = os.path.join(room, 'out')
        os.makedirs(self.out)
        self.env = {**os.environ, 'SOURCE_DATE_EPOCH': str(epoch), 'LC_ALL': 'C.UTF-8', 'TZ': 'UTC',
                    'PYTHONHASHSEED': '0'}

    def make(self, names):
        """Makes these of KINDS. The source is packed first, before anything is built in it."""
        for name in KINDS:
            if name in names:
                getattr(self, 'of_' + name)()

    def library(self):
        """The folder of the library for C, which is built there."""
        self.run('make', '-s', '-C', 'bindings/c', 'ARCHIVE=' + os.path.join(self.built, 'libpatricia_c.a'))
        return os.path.join(self.source, 'bindings', 'c', 'out')

    def run(self, *words, **more):
        """Runs a program in the source. What it says is shown where it fails."""
        if not shutil.which(words[0]):
            sys.exit('make dist: %s is not installed; docs/INSTALL.md names what is wanted' % words[0])
        ran = subprocess.run(words, cwd=self.source, env={**self.env, **more}, stdin=subprocess.DEVNULL,
                             stdout=subprocess.PIPE, stderr=subprocess.STDOUT, encoding='utf-8', errors='replace',
                             check=False)
        if ran.returncode:
            sys.exit('make dist: %s failed:\n%s' % (' '.join(words), ran.stdout[-8000:]))
        return ran.stdout

    def packed(self, name, top, files):
        """Packs files of the source, each a pair of its path there and its path in the package."""
        folder = os.path.join(self.room, 'packed', name)
        for path, to in files:
            place = os.path.join(folder, to)
            os.makedirs(os.path.dirname(place), exist_ok=True)
            (shutil.copytree if os.path.isdir(os.path.join(self.source, path)) else shutil.copy)(
                os.path.join(self.source, path), place)
        archives.pack(os.path.join(self.out, name), top, folder, self.epoch)

    def of_source(self):
        top = 'patricia-' + self.version
        archives.pack(os.path.join(self.out, top + '.tar.gz'), top, self.source, self.epoch)

    def of_rattle(self):
        """The crates on which patricia_tree stands, without their mutants, and their lines of crates.txt."""
        crates = repository.listed(self.source)
        names = [*repository.below(crates, 'patricia_tree'), 'patricia_tree']
        with open(os.path.join(self.source, 'crates.txt'), encoding='utf-8') as file:
            lines = [line for line in file if line.partition(':')[0].split()[:1] and
                     line.partition(':')[0].split()[0] in names]
        with open(os.path.join(self.room, 'crates.txt'), 'w', encoding='utf-8') as file:
            file.writelines(lines)
        files = [(os.path.join('crates', name, part),) * 2 for name in names for part in PARTS
                 if os.path.isdir(os.path.join(self.source, 'crates', name, part))]
        top = 'patricia-rattle-' + self.version
        own = [(name, name) for name in ('LICENSE', 'PROVED', 'HANDLES')]
        self.packed(top + '.tar.gz', top, [*files, *own, (os.path.join(self.room, 'crates.txt'), 'crates.txt')])

    def of_rust(self):
        """The crate: the proved sources with contracts erased, and the calls over them."""
        top, proved = 'patricia-' + self.version, 'rust/src/proved'
        self.run(sys.executable, '-B', 'packaging/eraser/erase.py')
        with open(os.path.join(self.source, 'PROVED'), encoding='utf-8') as file:
            claimed = file.read()
        with open(os.path.join(self.source, proved, 'DIGEST'), encoding='utf-8') as file:
            claimed += ERASED % ''.join('    ' + line for line in file)
        with open(os.path.join(self.source, 'rust', 'PROVED'), 'w', encoding='utf-8') as file:
            file.write(claimed)
        path = os.path.join(self.source, 'rust', 'Cargo.toml')
        with open(path, encoding='utf-8') as file:
            manifest = file.read()
        with open(path, 'w', encoding='utf-8') as file:
            file.write(published(manifest))
        parts = [(os.path.join('rust', name), name) for name in ('Cargo.toml', 'README.md', 'PROVED', 'src', 'tests')]
        self.packed(top + '.crate', top, [*parts, ('LICENSE', 'LICENSE')])

    def of_python(self):
        """The wheel, which has the library inside."""
        folder = os.path.join(self.source, 'bindings', 'python')
        shutil.copy(os.path.join(self.source, 'LICENSE'), folder)
        wheels = os.path.join(self.room, 'wheels')
        self.run(PYTHON, '-m', 'pip', '-q', 'wheel', '--no-build-isolation', '--no-index', '--no-deps', '-w', wheels,
                 folder, PATRICIA_LIB_DIR=self.library(), CFLAGS=FLAGS % self.source,
                 LDFLAGS='-Wl,-z,relro,-z,now')
        found, wanted = os.listdir(wheels), 'patricia-%s-cp38-abi3-linux_x86_64.whl' % self.version
        if found != [wanted]:
            sys.exit('make dist: the wheel is %s, and not %s' % (' '.join(found), wanted))
        self.run(PYTHON, '-m', 'wheel', 'unpack', '-d', wheels, os.path.join(wheels, wanted))
        top = os.path.join(wheels, 'patricia-' + self.version)
        shutil.copy(os.path.join(self.source, 'PROVED'), top + '/patricia-%s.dist-info' % self.version)
        self.run(PYTHON, '-m', 'wheel', 'pack', '-d', self.out, top)

    def of_debian(self):
        """The packages of debian/control."""
        wheel = next(name for name in os.listdir(self.out) if name.endswith('.whl'))
        with open(os.path.join(self.source, 'debian', 'changelog'), 'w', encoding='utf-8') as file:
            file.write(CHANGELOG % (self.version, email.utils.format_datetime(
                datetime.datetime.fromtimestamp(self.epoch, datetime.timezone.utc))))
        self.run('dpkg-buildpackage', '-b', '-us', '-uc', '-tc', BUILT=self.built,
                 WHEEL=os.path.join(self.out, wheel), DEB_BUILD_OPTIONS='nocheck noautodbgsym')
        for name in os.listdir(self.room):
            if name.endswith('.deb'):
                shutil.move(os.path.join(self.room, name), self.out)
