"""The library for C, installed into a folder, and what is compiled against it.

The archive is the one that PATRICIA_ARCHIVE names, which the gate builds beside `rt ci`, or else the one that `rt lib` makes
in crates/patricia_c. What is not installed here is skipped, but for cc, make and python3.
"""
import os
import shutil
import subprocess
import sys
import time
from tests.support import ROOT, Case, folder, run

WARNINGS = ['-Wall', '-Wextra', '-Wpedantic', '-Werror']
SANITIZE = ['-fsanitize=address,undefined', '-fno-sanitize-recover=all']
CHECKED = ['valgrind', '-q', '--leak-check=full', '--error-exitcode=9']
MOST_MINUTES = 60


def archive():
    """The path of the archive, once it is there."""
    named = os.environ.get('PATRICIA_ARCHIVE')
    if not named:
        crate = os.path.join(ROOT, 'crates', 'patricia_c')
        subprocess.run(['rt', 'lib'], cwd=crate, stdout=subprocess.DEVNULL, check=True)
        return os.path.join(crate, 'out', 'libpatricia_c.a')
    until = time.monotonic() + 60 * MOST_MINUTES
    while not os.path.exists(named):
        if time.monotonic() > until:
            raise AssertionError('there is no %s after %d minutes' % (named, MOST_MINUTES))
        time.sleep(1)
    return named


def python_headers(python):
    """Whether a Python can build an extension."""
    code = 'import os, setuptools, sysconfig; os.stat(os.path.join(sysconfig.get_path("include"), "Python.h"))'
    return not run([python, '-c', code]).returncode


def python_package(test, *flags):
    """The folder with the package of bindings/python as this Python builds it, in a copy, since setuptools leaves
    files beside it."""
    if not python_headers(sys.executable):
        test.skipTest('setuptools and the headers of Python are not installed')
    copy = test.path('python' + ''.join(flags))
    if not os.path.exists(copy):
        shutil.copytree(os.path.join(ROOT, 'bindings', 'python'), copy)
        env = {**os.environ, 'PATRICIA_LIB_DIR': test.path('installed', 'lib'), 'LDFLAGS': ' '.join(flags),
               'CFLAGS': ' '.join(['-O2 -Wall -Wextra -Werror', *flags])}
        test.succeeds([sys.executable, 'setup.py', '-q', 'build', '--build-lib', 'packages'], env=env, cwd=copy)
    return os.path.join(copy, 'packages')


class Installed(Case):
    """Programs against the library, which is installed once for all tests."""
    room = flags = None

    @classmethod
    def path(cls, *parts):
        return os.path.join(cls.room, *parts)

    @classmethod
    def install(cls, add_cleanup):
        """Installs the library, before the first test of a module."""
        cls.room = folder(add_cleanup)
        words = ['ARCHIVE=' + archive(), 'OUT=' + cls.path('built'), 'PREFIX=' + cls.path('installed'), 'install']
        subprocess.run(['make', '-s', '-C', os.path.join(ROOT, 'bindings', 'c'), *words], check=True)
        os.environ['PKG_CONFIG_PATH'] = cls.path('installed', 'lib', 'pkgconfig')
        cls.flags = ['-I' + cls.path('installed', 'include'), '-L' + cls.path('installed', 'lib'), '-lpatricia']
        if shutil.which('pkg-config'):
            told = subprocess.run(['pkg-config', '--cflags', '--libs', 'patricia'], stdout=subprocess.PIPE, check=True)
            cls.flags = told.stdout.decode().split()
        # without a shared library to be found, cc links the archive
        os.mkdir(cls.path('shared'))
        for name in os.listdir(cls.path('installed', 'lib')):
            if name.startswith('libpatricia.so'):
                os.rename(cls.path('installed', 'lib', name), cls.path('shared', name))

    def wants(self, tool):
        if not shutil.which(tool):
            self.skipTest(tool + ' is not installed')

    def succeeds(self, words, **more):
        """Runs words, which must end with 0, and returns what they write."""
        ran = run(words, **more)
        said = (ran.stdout[-2000:] + ran.stderr[-2000:]).decode('utf-8', 'replace')
        self.assertEqual(ran.returncode, 0, '%s: %s' % (' '.join(map(str, words)), said))
        return ran.stdout

    def says_ok(self, *words):
        """Runs a program, which has to print that all is well."""
        self.assertRegex(self.succeeds(words), rb'(?m)^ok')

    def compiled(self, name, *flags):
        """A program of tests/bindings, compiled with more flags."""
        source = os.path.join(ROOT, 'tests', 'bindings', name + '.c')
        path = self.path(name + ''.join(flags).replace('/', ''))
        if not os.path.exists(path):
            self.succeeds([os.environ.get('CC', 'cc'), '-std=c11', '-O1', '-g', *WARNINGS, *flags, '-o', path, source,
                           *self.flags, '-pthread'])
        return path

    def wants_sanitizers(self, *flags):
        words_of = [os.environ.get('CC', 'cc'), *flags, '-x', 'c', '-o', self.path('none'), '-']
        if run(words_of, b'int main(void) { return 0; }').returncode or run([self.path('none')]).returncode:
            self.skipTest('no such sanitizers are installed')
