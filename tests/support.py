"""What the test modules share: the built programs, limits, refused memory requests, and a method for each case.

The modules `tests/test_*.py` run on what `rt ci` has built:

    python3 -B -m unittest                        all of them
    python3 -B -m unittest tests.test_cases       one module
    python3 -B -m unittest -k NAME                the tests whose names have NAME in them

A failure prints the command that runs its test again.
"""
import contextlib
import functools
import os
import re
import resource
import shutil
import subprocess
import sys
import tempfile
import unittest
from typing import NamedTuple

TESTS = os.path.dirname(os.path.abspath(__file__))
ROOT = os.path.dirname(TESTS)
# How the name of a program ends as clang builds it, and as Rattle's own compiler does.
BUILDS = {'clang': '', 'rattle': '.by-rattle'}
# Of processor time, so that a slow or busy machine fails nothing.
MOST_SECONDS = 300
MOST_REQUESTS = 10000
LOG = re.compile(rb'requests=(\d+) refused=([01]) largest=(\d+)\n')


class Case(unittest.TestCase):
    """A test case, of which a method that `each` marks is a test for each of its cases."""

    def __init_subclass__(cls):
        super().__init_subclass__()
        for name, method in list(vars(cls).items()):
            for row in getattr(method, 'rows', ()):
                of_row = functools.partialmethod(lambda self, row, method: method(self, *row), row, method)
                setattr(cls, 'test_%s_%s' % (name, '_'.join(map(word, row))), of_row)

    def shortDescription(self):
        """The command that runs this test again, which a failure prints."""
        return 'again: python3 -B -m unittest ' + self.id()

    def program(self, crate, build='clang', tests=False):
        """The path of a program that is built, or of a crate's tests."""
        name = crate + '_tests' * tests + BUILDS[build]
        path = os.path.join(ROOT, 'crates', crate, 'out', name)
        if not os.access(path, os.X_OK):
            self.fail('there is no %s: `rt ci` at the top of the repository builds it' % os.path.relpath(path, ROOT))
        return path

    def assert_ends(self, ran, output=b'', errors=b'', status=0):
        """Asserts how a program ended and all that it wrote; of a long output that differs, where it does."""
        self.assertEqual((ran.returncode, ran.stderr), (status, errors))
        if ran.stdout != output:
            pairs = zip(ran.stdout.split(b'\n'), output.split(b'\n'))
            differing = next(((n, *pair) for n, pair in enumerate(pairs, 1) if pair[0] != pair[1]), None)
            self.fail('line %d is %.500r, not %.500r' % differing if differing else 'the output has another length')


def word(case):
    """A case as a part of a method's name."""
    return re.sub(r'\W+', '_', str(case))


def each(*rows):
    """Makes a test of a method for each row, with the row's values as arguments."""
    def marked(method):
        method.rows = [row if isinstance(row, tuple) else (row,) for row in rows]
        return method
    return marked


def pairs(names, others=tuple(BUILDS)):
    """Each name with each of the others, which are the two builds if none are given."""
    return [(name, other) for name in names for other in others]


def read(*path):
    """The bytes of a file of the repository, or None where it is not there."""
    path = os.path.join(ROOT, *path)
    if not os.path.exists(path):
        return None
    with open(path, 'rb') as file:
        return file.read()


def limits(stack=None):
    """Limits a program's processor time, and its call stack to so many KiB if a number is given."""
    def start():
        resource.setrlimit(resource.RLIMIT_CPU, (MOST_SECONDS, MOST_SECONDS))
        resource.setrlimit(resource.RLIMIT_CORE, (0, 0))
        if stack:
            resource.setrlimit(resource.RLIMIT_STACK, (stack * 1024, stack * 1024))
    return start


def run(words, data=b'', stack=None, **more):
    """Runs a program on an input under limits. Without a limit of its stack it starts faster, by a limit of its
    processor time that is set once it runs."""
    pipes = {'stdin': subprocess.PIPE, 'stdout': subprocess.PIPE, 'stderr': subprocess.PIPE}
    with subprocess.Popen(words, preexec_fn=limits(stack) if stack else None, **pipes, **more) as process:
        if not stack:
            with contextlib.suppress(ProcessLookupError):
                resource.prlimit(process.pid, resource.RLIMIT_CPU, (MOST_SECONDS, MOST_SECONDS))
        output, errors = process.communicate(data)
    return subprocess.CompletedProcess(words, process.returncode, output, errors)


def made(script, *words, data=b''):
    """What a script of tests/oracle writes."""
    words = [sys.executable, '-B', '-m', 'tests.oracle.' + script, *words]
    return subprocess.run(words, input=data, stdout=subprocess.PIPE, cwd=ROOT, check=True).stdout


def folder(add_cleanup):
    """A new folder. It is removed by what is given: a test's `addCleanup`, `addClassCleanup`, `addModuleCleanup`."""
    path = tempfile.mkdtemp(prefix='patricia-')
    add_cleanup(shutil.rmtree, path)
    return path


@functools.cache
def shim(source):
    """A C file of tests/ as a shared library, to be loaded before a program's own libraries."""
    kept = tempfile.TemporaryDirectory(prefix='patricia-')
    path = os.path.join(kept.name, 'shim.so')
    subprocess.run(['cc', '-O1', '-shared', '-fPIC', '-o', path, os.path.join(TESTS, source)], check=True)
    shim.kept = [*getattr(shim, 'kept', ()), kept]
    return path


class Refused(NamedTuple):
    """A run of a program of which a memory request may be refused: how it ended, how many requests it made, whether
    one was refused, and for how many bytes the largest was."""
    returncode: int
    stdout: bytes
    stderr: bytes
    requests: int
    is_refused: bool
    largest: int


def refused(words, at=0, data=b'', **more):
    """Runs a program with its memory request of this number refused, or with none refused."""
    with tempfile.NamedTemporaryFile() as log:
        env = {**os.environ, 'REFUSE_AT': str(at), 'REFUSE_LOG': log.name, 'LD_PRELOAD': shim('refusal/refuse.c')}
        ran = run(words, data, env=env, **more)
        said = LOG.search(log.read())
    if not said and ran.returncode == 0:
        raise AssertionError('the shim was not loaded: %r' % (ran.stderr[-500:],))
    # a program that ends by a signal logs nothing
    requests, is_refused, largest = said.groups() if said else (0, b'0', 0)
    return Refused(ran.returncode, ran.stdout, ran.stderr, int(requests), is_refused == b'1', int(largest))


def in_turn(words, data=b'', **more):
    """Runs a program with its first memory request refused, with its second one, and so on, and at last with none. It
    is started once, and the shim forks for each run."""
    with tempfile.NamedTemporaryFile() as given, tempfile.NamedTemporaryFile() as runs:
        given.write(data)
        given.flush()
        env = {**os.environ, 'REFUSE_INPUT': given.name, 'REFUSE_RUNS': runs.name,
               'LD_PRELOAD': shim('refusal/refuse.c')}
        started = subprocess.run(words, env=env, stdin=subprocess.DEVNULL, stdout=subprocess.PIPE,
                                 stderr=subprocess.STDOUT, check=False, **more)
        if started.returncode:
            raise AssertionError('%s: %r' % (words, started))
        for at, line in enumerate(iter(runs.readline, b''), 1):
            status, requests, is_refused, largest, *lens = map(int, line.split())
            output, errors = map(runs.read, lens)
            yield at, Refused(os.waitstatus_to_exitcode(status), output, errors, requests, is_refused == 1, largest)


def one_by_one(words, data=b'', **more):
    """The same by a start for each run, so that what it leaves can be looked at before the next one."""
    for at in range(1, MOST_REQUESTS):
        ran = refused(words, at, data, **more)
        yield at, ran
        if not ran.is_refused:
            return
    raise AssertionError('%s: no end of memory requests' % words)
