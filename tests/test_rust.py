"""The package of rust/: the proved sources with contracts erased, and the calls over them.

It is copied, since cargo leaves files beside it, and built without a network. What is not installed here is skipped.
"""
import os
import re
import shutil
import unittest
from tests.bindings import documented
from tests.rust import package
from tests.support import ROOT, Case, folder, run

WARNINGS = '-D warnings'
# What is in the crate's package besides sources and tests.
OTHER = {'Cargo.toml', 'Cargo.toml.orig', 'Cargo.lock', 'LICENSE', 'PROVED', 'README.md', 'src/proved/DIGEST'}
TARGET_OF_32_BITS = 'i686-unknown-linux-gnu'


def setUpModule():
    if not shutil.which('cargo'):
        raise unittest.SkipTest('cargo is not installed')
    Built.room = folder(unittest.addModuleCleanup)
    Built.package = os.path.join(Built.room, 'rust')
    package.copy(Built.package)
    package.erase(Built.package)


class Built(Case):
    """The package, which is copied once for all tests."""
    room = package = None

    def cargo(self, *words, where=None, **more):
        """Runs cargo, which must end with 0, and returns what it writes."""
        ran = package.cargo(where or self.package, words, self.room, output=True, **more)
        self.assertEqual(ran.returncode, 0, ran.stdout[-6000:])
        return ran.stdout


class Tests(Built):
    """The tests of the package, as it is and in the configuration of the workbench."""

    def test_its_tests(self):
        said = self.cargo('test')
        self.assertNotIn('warning', said)
        self.assertGreater(len(re.findall(r'^test .* ok$', said, re.M)), 100)

    def test_in_the_workbench(self):
        """Each request for memory is refused in turn, and the examples of the proved sources run."""
        made = os.path.join(self.room, 'workbench')
        package.copy(made)
        package.erase(made)
        package.show_examples(made)
        said = self.cargo('test', '--test', 'refused', '--test', 'nodes', where=made, workbench=True)
        self.assertEqual(len(re.findall(r'test result: ok\. [1-9]\d* passed', said)), 2)
        said = self.cargo('test', '--doc', where=made, workbench=True)
        self.assertGreater(len(re.findall(r'^test src/proved/.* ok$', said, re.M)), 150)

    def test_a_million_damaged_encodings_ask_for_little(self):
        said = self.cargo('test', '--release', '--test', 'hostile')
        self.assertRegex(said, r'test result: ok\. [1-9]\d* passed')

    def test_with_serde(self):
        if not package.has_serde():
            self.skipTest('librust-serde-dev and librust-serde-json-dev are not installed')
        said = self.cargo('test', where=os.path.join(self.package, 'with-serde'))
        self.assertRegex(said, r'test result: ok\. [1-9]\d* passed')

    def test_on_32_bits(self):
        """The random calls against std's map, if the standard library for such a target is installed."""
        sysroot = run(['rustc', '--print', 'sysroot']).stdout.decode().strip()
        if not os.path.isdir(os.path.join(sysroot, 'lib', 'rustlib', TARGET_OF_32_BITS)):
            self.skipTest('the standard library for %s is not installed' % TARGET_OF_32_BITS)
        self.cargo('test', '--target', TARGET_OF_32_BITS, '--tests')


class Product(Built):
    """What a user sees of the package besides its calls."""

    def test_documentation_has_no_warnings(self):
        self.cargo('doc', '--no-deps', rustdoc=WARNINGS)

    def test_code_has_no_warnings(self):
        """By clippy if it is installed. One of its lints compares each call of std with the oldest compiler that the
        package names."""
        features = ['--features', 'serde'] if package.has_serde() else []
        if run(['cargo', 'clippy', '--version']).returncode:
            self.cargo('check', '--all-targets', *features, rustc=WARNINGS)
        else:
            lints = ['-D', 'warnings', '-D', 'clippy::incompatible_msrv']
            self.cargo('clippy', '--all-targets', *features, '--', *lints)

    def test_package_has_the_sources_the_tests_and_the_notices(self):
        for name in 'LICENSE', 'PROVED':
            with open(os.path.join(self.package, name), 'w', encoding='utf-8') as file:
                file.write('')
        said = self.cargo('package', '--list', '--allow-dirty')
        listed = {line for line in said.splitlines() if ' ' not in line and line}
        files = {os.path.relpath(os.path.join(at, name), self.package)
                 for part in ('src', 'tests') for at, _, names in os.walk(os.path.join(self.package, part))
                 for name in names if name.endswith('.rs')}
        self.assertEqual(listed - OTHER - files, set())
        self.assertEqual((OTHER | files) - listed - {'Cargo.lock', 'Cargo.toml.orig'}, set())
        self.assertGreater(len([name for name in files if name.startswith('src/proved/')]), 140)

    def test_nothing_is_unsafe(self):
        with open(os.path.join(self.package, 'src', 'lib.rs'), encoding='utf-8') as file:
            self.assertIn('#![forbid(unsafe_code)]\n', file.read())

    def test_example_of_the_page(self):
        code, wanted = documented.examples()['main.rs']
        self.assertEqual(documented.printed('main.rs', code, self.room, []), wanted)

    def test_cargo_asks_no_registry_in_the_repository(self):
        """Whatever is installed, and with nothing that an earlier run has fetched."""
        env = {**os.environ, 'CARGO_HOME': os.path.join(self.room, 'home')}
        ran = run(['cargo', 'metadata', '--offline', '--locked', '--format-version', '1'], env=env,
                  cwd=os.path.join(ROOT, 'rust'))
        self.assertEqual(ran.returncode, 0, ran.stderr[-2000:])

    def test_two_commands_of_the_page_build_and_test_it(self):
        """The page names them; here they are the two that the other tests run."""
        with open(os.path.join(ROOT, 'docs', 'BINDINGS.md'), encoding='utf-8') as file:
            page = file.read()
        self.assertIn('    python3 packaging/eraser/erase.py\n    cd rust && cargo test\n', page)

