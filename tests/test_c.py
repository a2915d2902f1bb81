"""What C and C++ see of the library, and that what is declared is exported and documented."""
import os
import shutil
import unittest
from tests.bindings import declared, documented
from tests.bindings.installed import CHECKED, SANITIZE, WARNINGS, Installed, python_package
from tests.support import ROOT, each, run


def setUpModule():
    Installed.install(unittest.addModuleCleanup)


PROGRAMS = 'calls', 'texts', 'refusals', 'threads', 'readers'


class InC(Installed):
    """The programs of tests/bindings as they are, under valgrind and under sanitizers."""

    @each(*PROGRAMS)
    def program(self, name):
        self.says_ok(self.compiled(name))

    @each(*PROGRAMS)
    def valgrind(self, name):
        self.wants('valgrind')
        self.says_ok(*CHECKED, self.compiled(name))

    @each('patricia_free', 'patricia_cursor_free', 'patricia_iterator_free', 'patricia_shared_free')
    def leak_of(self, name):
        """One that forgets the memory keeps every contract and the program ends well: what refuses it is the run
        under valgrind."""
        self.wants('valgrind')
        forgets = os.path.join(ROOT, 'tests', 'bindings', 'forgets.c')
        program = self.compiled('calls', '-Wl,--wrap=' + name, forgets)
        self.says_ok(program)
        ran = run([*CHECKED, program])
        self.assertEqual(ran.returncode, 9, ran.stderr)
        self.assertIn(b'definitely lost', ran.stderr)

    @each('threads', 'readers')
    def helgrind(self, name):
        self.wants('valgrind')
        self.says_ok('valgrind', '-q', '--tool=helgrind', '--error-exitcode=9', self.compiled(name))

    @each(*PROGRAMS)
    def sanitizers(self, name):
        self.wants_sanitizers(*SANITIZE)
        self.says_ok(self.compiled(name, *SANITIZE))

    @each('threads', 'readers')
    def sanitizer_of_threads(self, name):
        self.wants_sanitizers('-fsanitize=thread')
        self.says_ok(self.compiled(name, '-fsanitize=thread'))

    def test_a_program_of_cpp(self):
        compiler = os.environ.get('CXX', 'c++')
        self.wants(compiler)
        source = os.path.join(ROOT, 'tests', 'bindings', 'plus.cpp')
        self.succeeds([compiler, '-std=c++11', *WARNINGS, '-o', self.path('plus'), source, *self.flags])
        self.says_ok(self.path('plus'))


class Documents(Installed):
    """What is declared is what is exported, and the examples of docs/BINDINGS.md print what the page says."""

    def test_what_is_declared_is_what_is_exported(self):
        self.assertEqual(declared.faults(), [])

    def test_each_function_is_called_by_a_program(self):
        self.assertEqual(declared.uncalled(), [])

    def test_examples_are_there(self):
        self.assertEqual(tuple(documented.examples()), documented.NAMES)

    @each('words.c', 'words.py')
    def example(self, name):
        if name == 'words.py':
            python_package(self)
        code, wanted = documented.examples()[name]
        self.assertEqual(documented.printed(name, code, self.room, self.flags), wanted)
