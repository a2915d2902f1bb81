"""The lines that `test_scripts` answers, over the library for C."""
import functools
import unittest
from tests.bindings.installed import CHECKED, SANITIZE, Installed
from tests.oracle import lines, refuse_lines
from tests.support import each, run

# Lines that take little time under valgrind.
SOME = 'order', 'near'


def setUpModule():
    Installed.install(unittest.addModuleCleanup)


@functools.cache
def offered(name, calls):
    """The lines of a name that are of these calls, kind by kind, and what they must be answered."""
    made = sorted(lines.made(name, calls), key=lambda line: lines.KINDS.index(line.split(' ')[0]))
    return lines.data(made), lines.answered(made)


class Lines(Installed):
    """The lines of `test_scripts` that C offers, against the independent model."""

    def calls(self):
        """The calls that the program offers."""
        return set(run([self.compiled('scripts'), 'calls']).stdout.decode().split('\n'))

    def answers(self, name, *before, flags=(), words=()):
        """The program answers the lines of a name, in a run after these words."""
        data, output = offered(name, frozenset(self.calls()))
        self.assert_ends(run([*before, self.compiled('scripts', *flags), *words], data), output)

    @each(*lines.MADE)
    def answers_to(self, name):
        self.answers(name)

    @each(*(name for name in lines.MADE if name != 'damage'))
    def answers_of_handles(self, name):
        """The same where calls that read are asked of a handle."""
        self.answers(name, words=['shared'])

    @each(*SOME)
    def valgrind(self, name):
        self.wants('valgrind')
        self.answers(name, *CHECKED)
        self.answers(name, *CHECKED, words=['shared'])

    @each(*lines.MADE)
    def sanitizers(self, name):
        self.wants_sanitizers(*SANITIZE)
        self.answers(name, flags=SANITIZE)

    @each('maps', 'sets')
    def refused(self, name):
        """Each memory request of a run is refused in turn."""
        refuse_lines.check(self.compiled('scripts'), name, self.calls())
