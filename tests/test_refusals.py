"""Tests and programs with each of their memory requests refused in turn, and tests whose requests are counted."""
import os
import shutil
from tests.oracle import refuse_commands, refuse_lines
from tests.prefixes import refusals
from tests.support import ROOT, Case, each, folder, in_turn, pairs, refused

# The crate of tests that lines of data cannot say. Each of these passes whichever of its memory requests is refused.
TESTS = 'test_requests'
REFUSED = ['%s_refused_in_turn' % name for name in (
    'collects::map_extends', 'collects::map_collects', 'collects::set_extends', 'collects::set_collects',
    'json::texts', 'router::bytes', 'router::texts')] + ['serve::refused_in_turn']
# Of each a test that makes values, NAME_made, and one that makes the same values and then each call on them that does
# not allocate, NAME_called.
FREE = ['%s::%s' % (part, kind) for part in ('keys', 'loans', 'maps', 'prefixes', 'router', 'sets', 'walks')
        for kind in ('bytes', 'texts')] + ['keys::units', 'counts::texts', 'counts::nested', 'many::texts']


class Counted(Case):
    """A case whose tests are run under the shim that counts and refuses memory requests."""

    def ran(self, name, at=0):
        return refused([self.program(TESTS, tests=True), 'tests::' + name], at)

    def requests(self, name):
        """How many memory requests a test makes, which passes."""
        ran = self.ran(name)
        self.assertEqual(ran.returncode, 0, ran)
        return ran.requests

    def after(self, made, called):
        """A test with the first request refused that it makes after those of another test."""
        requests = self.requests(made)
        self.assertGreater(requests, 0)
        return self.ran(called, requests + 1)


class Tests(Case):
    """A test passes with each of its memory requests refused in turn."""

    @each(*REFUSED)
    def refused(self, name):
        for at, ran in in_turn([self.program(TESTS, tests=True), 'tests::' + name]):
            self.assertEqual(ran.returncode, 0, (at, ran))
        self.assertGreater(at, 1)


class Free(Counted):
    """Calls that do not allocate make no request, and none is refused where the first would be."""

    @each(*FREE)
    def free(self, name):
        self.assertEqual(self.requests(name + '_called'), self.requests(name + '_made'))
        ran = self.after(name + '_made', name + '_called')
        self.assertEqual((ran.returncode, ran.is_refused), (0, False), ran)


class Single(Counted):
    """How many requests calls make, and what the first one does where it is refused."""

    def test_the_third_of_three_removals_alone_allocates_once(self):
        none, two, three = (self.requests('removals::%s_of_three' % n) for n in ('none', 'two', 'three'))
        self.assertGreater(none, 0)
        self.assertEqual((two, three), (none, none + 1))

    def test_a_reload_is_refused(self):
        """The test wants the reload to be done, and fails there."""
        ran = self.after('reload::made', 'reload::reloaded')
        self.assertNotEqual(ran.returncode, 0, ran)
        self.assertIn(b'matches!(reply, Reply::Done)', ran.stdout + ran.stderr)


class Programs(Case):
    """Programs with each request refused in turn."""

    @each(*pairs(('maps', 'sets', 'units', 'routers')))
    def scripts(self, name, build):
        refuse_lines.check(self.program('test_scripts', build), name)

    @each(*((kind, n, build) for kind in ('bytes', 'text', 'units') for n in range(len(refuse_commands.SCRIPTS))
            for build in ('clang', 'rattle')))
    def commands(self, kind, n, build):
        refuse_commands.check(self.program('ptree', build), kind, refuse_commands.SCRIPTS[n])

    @each(*((n, build) for n in range(len(refusals.COMMANDS)) for build in ('clang', 'rattle')))
    def prefixes(self, n, build):
        room = os.path.join(folder(self.addCleanup), 'work')
        shutil.copytree(os.path.join(ROOT, 'tests', 'prefixes', 'lists'), room)
        program = self.program('prefixes', build)
        self.assertEqual(refused([program, 'pack', 'names', 'packed'], cwd=room).returncode, 0)
        refusals.check(program, *refusals.COMMANDS[n], room)
