"""The lines that `test_scripts` answers, against the independent model."""
import functools
from tests.oracle import lines
from tests.support import Case, each, pairs, read, run

SMALL_STACK = 256


@functools.cache
def answered(name):
    """Lines as data, and what they must be answered."""
    made = lines.made(name)
    return lines.data(made), lines.answered(made)


class Proved(Case):
    """The program, as both compilers of the kit build it."""

    @each(*pairs((*lines.MADE, lines.LARGE)))
    def lines(self, name, build):
        data, output = answered(name)
        self.assert_ends(run([self.program('test_scripts', build)], data), output)

    @each('clang', 'rattle')
    def deep(self, build):
        """No call's use of the call stack grows with the tree."""
        data, output = lines.deep()
        self.assert_ends(run([self.program('test_scripts', build)], data, stack=SMALL_STACK), output)

    def test_answers_that_the_gate_compares_with_are_those_of_the_model(self):
        self.assertEqual(read('crates', 'test_scripts', 'stdout'), answered('committed')[1])
