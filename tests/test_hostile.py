"""Programs under hostile use: streams that are closed, full or cut, long lines, little memory, small call stacks."""
from tests.hostile import borders
from tests.support import Case, each, folder, made, pairs, read, run

SMALL_STACK = 256
# Of tests, which run beside what reads their names.
TEST_STACK = 512


class Borders(Case):
    """`ptree` at its borders ends by itself, with the status and the error line that docs/PTREE.md has."""

    @each(*pairs(borders.PARTS))
    def border(self, part, build):
        runs = borders.Runs(self.program('ptree', build))
        getattr(borders, 'check_' + part)(runs)
        self.assertGreater(runs.count, 0)


class SmallStacks(Case):
    """No call's use of the call stack grows with the tree."""

    @classmethod
    def setUpClass(cls):
        cls.room = folder(cls.addClassCleanup)
        made('make_deep', cls.room)

    @each(*pairs(('bytes', 'text')))
    def deep_input(self, kind, build):
        data, output = (read(self.room, kind + end) for end in ('.in', '.out'))
        self.assert_ends(run([self.program('ptree', build), kind], data, stack=SMALL_STACK), output)

    def test_a_deep_map_is_dropped(self):
        name = 'tests::drops::early::two_of_a_deep_map'
        ran = run([self.program('test_requests', tests=True), name], stack=TEST_STACK)
        self.assertEqual(ran.returncode, 0, ran)
