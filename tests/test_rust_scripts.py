"""The lines that `test_scripts` answers, over the Rust package."""
import os
import shutil
import unittest
from tests.oracle import lines
from tests.rust import package
from tests.support import Case, each, folder, run


class Lines(Case):
    """The program of rust/examples/scripts, over the sources without their contracts."""

    @classmethod
    def setUpClass(cls):
        if not shutil.which('cargo'):
            raise unittest.SkipTest('cargo is not installed')
        room = folder(cls.addClassCleanup)
        made = os.path.join(room, 'rust')
        package.copy(made)
        package.erase(made)
        ran = package.cargo(made, ['build', '--quiet', '--example', 'scripts'], room, output=True,
                            CARGO_PROFILE_DEV_OPT_LEVEL='1')
        if ran.returncode:
            raise AssertionError(ran.stdout[-6000:])
        cls.scripts = os.path.join(room, 'target', 'plain', 'debug', 'examples', 'scripts')
        cls.calls = set(run([cls.scripts, 'calls']).stdout.decode().split('\n'))

    @each(*lines.MADE)
    def lines(self, name):
        made = lines.made(name, self.calls)
        self.assert_ends(run([self.scripts], lines.data(made)), lines.answered(made))

    def test_deep(self):
        data, output = lines.deep()
        self.assert_ends(run([self.scripts], data), output)
