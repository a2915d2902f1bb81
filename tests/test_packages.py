"""Packages: the version, the manual pages, what the shared library exports, when `make dist` refuses, and that two
builds have the same bytes.

The packages are made of the library that PATRICIA_ARCHIVE names, or that `rt lib` makes, and of the built programs, as
a trial: what they claim is the gate's alone. What is not installed here is skipped, but for cc, make and python3. Where
debootstrap is, the packages are installed into an empty Debian, which takes minutes; PATRICIA_BASE names a file in
which it is kept.
"""
import functools
import json
import os
import re
import shutil
import subprocess
import sys
import tarfile
import unittest
import zipfile
from typing import NamedTuple
from tests import crates
from tests.bindings import documented
from tests.mutants import due
from tests.packages import root
from tests.support import ROOT, Case, each, folder, run
from tests.bindings.installed import archive

PACKAGING = os.path.join(ROOT, 'packaging')
sys.path.insert(0, PACKAGING)
import gate  # noqa: E402
import tree  # noqa: E402

NOT_SOURCES = 'out', 'dist', 'target', '.git', '__pycache__'
AUTHOR = ['-c', 'user.name=a', '-c', 'user.email=a@example.org', '-c', 'commit.gpgsign=false']
FOR_DEBIAN = 'dpkg-buildpackage', 'dh', 'dh_python3'
PYTHON = '/usr/bin/python3'


def read(*path):
    with open(os.path.join(ROOT, *path), encoding='utf-8') as file:
        return file.read()


def version():
    return tree.version()


def git(place, *words):
    return subprocess.run(['git', '-C', place, *AUTHOR, *words], stdout=subprocess.PIPE, encoding='utf-8',
                          check=True).stdout


def committed(place):
    """A repository of the sources, in which no mutants are due. Here may be neither a repository nor a mutant: the gate
    runs the tests in a copy."""
    shutil.copytree(ROOT, place, ignore=shutil.ignore_patterns(*NOT_SOURCES, 'must-fail'))
    os.makedirs(place + '/crates/patricia_keys/must-fail')
    shutil.copy(__file__, place + '/crates/patricia_keys/must-fail')
    git(place, 'init', '-q')
    git(place, 'add', '-A')
    git(place, 'commit', '-qm', 'Sources')
    due.record(place, dict.fromkeys(crates.listed(place), (0, 0)))
    git(place, 'add', '-A')
    git(place, 'commit', '-qm', 'Record')
    return git(place, 'rev-parse', 'HEAD').strip()


def built(place):
    """A folder with what the gate builds."""
    os.mkdir(place)
    shutil.copy(archive(), os.path.join(place, gate.ARCHIVE))
    for name in gate.PROGRAMS:
        shutil.copy(os.path.join(ROOT, 'crates', name, 'out', name), place)
    return place


class Version(Case):
    """The version stands in patricia.h; what cannot read it there has the same."""

    def test_numbers_are_those_of_the_text(self):
        text = read('bindings', 'c', 'patricia.h')
        numbers = [re.search(r'#define PATRICIA_VERSION_%s (\d+)\n' % part, text)[1]
                   for part in ('MAJOR', 'MINOR', 'PATCH')]
        self.assertEqual('.'.join(numbers), version())

    @each(('rust/Cargo.toml', r'^version = "(.*)"$'),
          ('crates/prefixes_core/src/options.rt', r'VERSION: &str = "(.*)";$'),
          ('CHANGELOG.md', r'^## (\S+),'))
    def file(self, path, pattern):
        self.assertEqual(re.search(pattern, read(path), re.M)[1], version())

    def test_module_has_no_other(self):
        there = os.listdir(os.path.join(ROOT, 'bindings', 'python'))
        texts = [read('bindings', 'python', name) for name in ('pyproject.toml', 'setup.py') if name in there]
        self.assertTrue(texts)
        found = re.findall(r'^(?:.*\W)?version ?= ?["\'](.*?)["\']', '\n'.join(texts), re.M)
        self.assertLessEqual({*found}, {version()})

    def test_prefixes_prints_it(self):
        self.assert_ends(run([self.program('prefixes'), '--version']), b'prefixes %s\n' % version().encode())

    def test_changes_of_a_version_are_at_most_ten_lines(self):
        for part in read('CHANGELOG.md').split('\n## ')[1:]:
            self.assertLessEqual(len([line for line in part.split('\n')[1:] if line]), 10, part[:20])


def declared():
    """The functions of patricia.h, and the inline ones among them."""
    text = read('bindings', 'c', 'patricia.h')
    return ({*re.findall(r'^(?!typedef|#| |/).*?\b(patricia_\w+)\((?!\))', text, re.M)},
            {*re.findall(r'^static inline .*?\b(patricia_\w+)\(', text, re.M)})


class Manual(Case):
    """The manual pages, each from its one source."""

    @classmethod
    def setUpClass(cls):
        if not shutil.which('pandoc'):
            raise unittest.SkipTest('pandoc is not installed')
        cls.room = folder(cls.addClassCleanup)
        subprocess.run(['make', '-s', '-C', os.path.join(ROOT, 'bindings', 'c'), 'OUT=' + cls.room, cls.room + '/man3'],
                       check=True)
        for name in gate.PROGRAMS:
            with open(os.path.join(cls.room, 'man3', name + '.1'), 'wb') as file:
                subprocess.run([os.path.join(PACKAGING, 'manual.sh'), name], stdout=file, check=True)
        cls.pages = [os.path.join(cls.room, 'man3', name) for name in ('patricia.3', 'prefixes.1', 'ptree.1')]

    def shown(self, page):
        """A page as it is read."""
        if not shutil.which('man'):
            self.skipTest('man is not installed')
        env = {**os.environ, 'LC_ALL': 'C.UTF-8', 'MANWIDTH': '200'}
        ran = run(['man', '--warnings', '-E', 'UTF-8', '-l', '-Tutf8', page], env=env)
        self.assertEqual((ran.returncode, ran.stderr), (0, b''))
        return re.sub('.\b', '', re.sub(r'\x1b\[\d+m', '', ran.stdout.decode()))

    def test_mandoc_finds_no_error(self):
        if not shutil.which('mandoc'):
            self.skipTest('mandoc is not installed')
        for page in self.pages:
            ran = run(['mandoc', '-Tlint', '-Werror', page])
            self.assertEqual((ran.returncode, ran.stdout + ran.stderr), (0, b''))

    def test_each_function_has_a_page_with_its_declaration(self):
        shown, (names, _) = self.shown(self.pages[0]), declared()
        self.assertGreater(len(names), 40)
        for name in names:
            self.assertRegex(shown, r'(?m)^ +\w.* \**%s\(' % name)
            with open(os.path.join(self.room, 'man3', name + '.3'), encoding='utf-8') as file:
                self.assertEqual(file.read(), '.so man3/patricia.3\n')

    def test_page_of_the_library_has_all_sentences(self):
        told = ' '.join(self.shown(self.pages[0]).split())
        comments = re.findall(r'^/\* *(.*?)\*/', read('bindings', 'c', 'patricia.h'), re.M | re.S)
        self.assertGreater(len(comments), 40)
        for text in comments[1:]:
            sentence = ' '.join(text.replace('\n *', '\n').replace('`', '').split()).partition('. ')[0]
            self.assertIn(sentence.lower(), told.lower())

    @each('ptree', 'prefixes')
    def page_has_the_parts_of(self, program):
        shown = self.shown(os.path.join(self.room, 'man3', program + '.1'))
        parts = re.findall('^## (.*)$', read('docs', program.upper() + '.md'), re.M)
        wanted = ['Exit status' if x == 'Statuses' else x.replace('`', '') for x in parts]
        self.assertEqual(re.findall('^([A-Z].*[A-Z])$', shown, re.M),
                         ['NAME', 'SYNOPSIS', 'DESCRIPTION', *map(str.upper, wanted), 'SEE ALSO'])

    def test_completions_have_the_commands(self):
        block = re.search('^    .*?\n\n', read('docs', 'PREFIXES.md'), re.M | re.S)[0]
        commands = re.findall(r'^    prefixes (\w+)', block, re.M)
        script = ('source packaging/completions/prefixes.bash; '
                  'COMP_CWORD=1 COMP_WORDS=(prefixes ""); _prefixes; echo "${COMPREPLY[@]}"; '
                  'COMP_CWORD=2 COMP_WORDS=(prefixes tree --); _prefixes; echo "${COMPREPLY[@]}"')
        ran = run(['bash', '-c', script], cwd=ROOT)
        said = '%s help --help --version\n--drop --json --lines --null --help\n' % ' '.join(commands)
        self.assert_ends(ran, said.encode())
        shown = re.search(r'^commands=\((.*?)^\)', read('packaging', 'completions', '_prefixes'), re.M | re.S)[1]
        named = re.findall(r"^    '(\w+):", shown, re.M)
        self.assertEqual(named, [*commands, 'help'])

    @each('_prefixes', '_ptree')
    def zsh_reads(self, name):
        if not shutil.which('zsh'):
            self.skipTest('zsh is not installed')
        self.assert_ends(run(['zsh', '-n', os.path.join(PACKAGING, 'completions', name)]))


class Library(Case):
    """What `make install` puts in its place, and what the shared library exports."""

    @classmethod
    def setUpClass(cls):
        cls.room = folder(cls.addClassCleanup)
        cls.words = ['make', '-s', '-C', ROOT, 'BUILT=' + built(os.path.join(cls.room, 'built')),
                     'OUT=' + os.path.join(cls.room, 'out'), 'DESTDIR=' + os.path.join(cls.room, 'to'), 'PREFIX=/usr']
        subprocess.run([*cls.words, 'install'], check=True)
        cls.shared = os.path.join(cls.room, 'to', 'usr', 'lib', 'libpatricia.so')

    def test_exports_the_functions_of_the_header(self):
        ran = run(['nm', '-D', '--defined-only', self.shared])
        named = re.findall(r' [TW] (\S+)@@PATRICIA_0\.1\n', ran.stdout.decode())
        self.assertEqual(len(ran.stdout.splitlines()), len(named) + 1)
        names, inlined = declared()
        self.assertEqual(sorted(named), sorted(names - inlined))

    def test_has_a_soname_that_is_there(self):
        ran = run(['readelf', '-d', self.shared])
        self.assertIn(b'soname: [libpatricia.so.0]', ran.stdout)
        links = [os.readlink(self.shared), os.readlink(self.shared + '.0')]
        self.assertEqual(links, ['libpatricia.so.0', 'libpatricia.so.' + version()])
        self.assertTrue(os.path.isfile(self.shared + '.' + version()))

    def test_pkg_config_has_the_version(self):
        with open(os.path.join(os.path.dirname(self.shared), 'pkgconfig', 'patricia.pc'), encoding='utf-8') as file:
            self.assertIn('Version: %s\n' % version(), file.read())

    def test_uninstall_leaves_nothing_behind(self):
        to = os.path.join(self.room, 'other')
        words = [word.replace(self.room + '/to', to) for word in self.words]
        subprocess.run([*words, 'install'], check=True)
        self.assertGreater(len(self.files(to)), 70)
        subprocess.run([*words, 'uninstall'], check=True)
        self.assertEqual(self.files(to), [])

    def files(self, place):
        return [name for _, _, names in os.walk(place) for name in names]

    def test_install_says_what_is_not_built(self):
        ran = run(['make', '-s', '-C', ROOT, 'BUILT=/none', 'DESTDIR=' + self.room + '/none', 'install'])
        self.assertNotEqual(ran.returncode, 0)
        self.assertIn(b'run .ci/run', ran.stderr)


class Refusals(Case):
    """`make dist` refuses what is not proved or not committed. A fault may be mended in the order of the tests of a
    method, so that each is seen once all others are gone."""

    @classmethod
    def setUpClass(cls):
        cls.room = folder(cls.addClassCleanup)
        cls.place, cls.built = os.path.join(cls.room, 'sources'), built(os.path.join(cls.room, 'built'))
        cls.commit = committed(cls.place)
        cls.kept = os.path.join(cls.place, 'out', 'gate')

    def setUp(self):
        for place in self.kept, self.room + '/dist':
            shutil.rmtree(place, ignore_errors=True)
        os.makedirs(self.kept)
        for name in gate.FILES:
            shutil.copy(os.path.join(self.built, name), self.kept)
        self.record(self.commit, '12 passed, 0 failed')

    def record(self, commit, line):
        with open(os.path.join(self.kept, gate.RECORD), 'w', encoding='utf-8') as file:
            json.dump({'commit': commit, 'kit': 'none', 'line': line, 'sums': gate.sums(self.kept)}, file)

    def test_refuses_where_mutants_are_due(self):
        path = os.path.join(self.place, 'packaging', 'mutants.json')
        git(self.place, 'rm', '-q', path)
        git(self.place, 'commit', '-qm', 'no record')
        self.addCleanup(git, self.place, 'reset', '-q', '--hard', self.commit)
        self.assert_refused('are due: patricia_keys')

    def dist(self, *words):
        """Makes the package of the sources alone, from the checkout."""
        script = os.path.join(self.place, 'packaging', 'dist.py')
        return run([sys.executable, '-B', script, '--kinds', 'rattle', '--to', self.room + '/dist', *words])

    def test_a_folder_with_other_files_stays(self):
        os.makedirs(self.room + '/dist/kept')
        ran = self.dist()
        self.assertEqual(ran.returncode, 1)
        self.assertIn(b'other files than packages', ran.stderr)
        self.assertEqual(os.listdir(self.room + '/dist'), ['kept'])

    def assert_refused(self, *said, words=()):
        ran = self.dist(*words)
        self.assertEqual((ran.returncode, ran.stdout), (1, b''))
        for part in said:
            self.assertIn(part.encode(), ran.stderr)
        self.assertFalse(os.path.exists(self.room + '/dist'))

    def test_takes_what_a_gate_kept(self):
        self.assertEqual(self.dist().returncode, 0)
        name = 'patricia-rattle-%s' % version()
        with tarfile.open('%s/dist/%s.tar.gz' % (self.room, name)) as packed:
            told = packed.extractfile(name + '/PROVED').read().decode()
        for part in self.commit, '12 passed, 0 failed', gate.sums(self.built)[gate.ARCHIVE]:
            self.assertIn(part, told)

    def test_refuses_where_no_gate_passed(self):
        shutil.rmtree(self.kept)
        self.assert_refused('not proved', '.ci/run')

    def test_refuses_what_passed_at_another_commit(self):
        self.record('0' * 40, '12 passed, 0 failed')
        self.assert_refused('not proved', '000000000000', self.commit[:12])

    @each('11 passed, 1 failed', '0 passed, 0 failed', '')
    def refuses_a_gate_that_says(self, line):
        self.record(self.commit, line)
        self.assert_refused('not proved', repr(line))

    @each(*gate.FILES)
    def refuses_another(self, name):
        with open(os.path.join(self.kept, name), 'ab') as file:
            file.write(b'\n')
        self.assert_refused(name, 'is not the file that the gate built')

    @each('README.md', 'new')
    def refuses_changes_of(self, name):
        path = os.path.join(self.place, name)
        is_new = not os.path.exists(path)
        with open(path, 'a', encoding='utf-8') as file:
            file.write('\n')
        self.addCleanup(os.remove, path) if is_new else self.addCleanup(git, self.place, 'checkout', '-q', name)
        for words in ((), ('--trial', self.built)):
            self.assert_refused('differ from the commit', name, words=words)
        self.assert_ends(run([sys.executable, '-B', self.place + '/packaging/gate.py', 'commit']), b'\n')

    def test_gate_keeps_what_it_built(self):
        shutil.rmtree(self.kept)
        copy = os.path.join(self.room, 'copy')
        for name in gate.PROGRAMS:
            os.makedirs(os.path.join(copy, 'crates', name, 'out'))
            shutil.copy(os.path.join(self.built, name), os.path.join(copy, 'crates', name, 'out'))
        os.makedirs(self.room + '/bin')
        with open(self.room + '/bin/rt', 'w', encoding='utf-8') as file:
            file.write('#!/bin/sh\necho a kit of this test\n')
        os.chmod(self.room + '/bin/rt', 0o755)
        script = os.path.join(self.place, 'packaging', 'gate.py')
        ran = run([sys.executable, '-B', script, 'commit'])
        self.assert_ends(ran, self.commit.encode() + b'\n')
        words = 'keep', self.commit, copy, os.path.join(self.built, gate.ARCHIVE), '7 passed, 0 failed'
        env = {**os.environ, 'PATH': self.room + '/bin:' + os.environ['PATH']}
        self.assert_ends(run([sys.executable, '-B', script, *words], env=env))
        record = gate.proved(self.commit, self.kept)
        self.assertEqual((record['kit'], record['line']), ('a kit of this test', '7 passed, 0 failed'))


class Packages(NamedTuple):
    """Packages that were made twice: how that ended, of which kinds they are, and the folder of the first ones."""
    ran: subprocess.CompletedProcess
    kinds: list
    dist: str


@functools.cache
def made():
    """Makes all packages that can be made here twice, as a trial."""
    room = folder(unittest.addModuleCleanup)
    place, dist = os.path.join(room, 'sources'), os.path.join(room, 'dist')
    committed(place)
    kinds, wanted = ['source', 'rattle', 'rust'], 'import os, setuptools, sysconfig, wheel, pip; ' \
        'os.stat(sysconfig.get_path("include") + "/Python.h")'
    if os.path.exists(PYTHON) and not run([PYTHON, '-c', wanted]).returncode:
        kinds.append('python')
    if 'python' in kinds and all(map(shutil.which, FOR_DEBIAN)):
        kinds.append('debian')
    script = os.path.join(place, 'packaging', 'reproduce.py')
    words = ['--keep', dist, '--trial', built(os.path.join(room, 'built')), '--kinds', *kinds]
    return Packages(run([sys.executable, '-B', script, *words]), kinds, dist)


class Twice(Case):
    """All packages that can be made here are made twice, and have the same bytes. The first ones are looked at."""

    @classmethod
    def setUpClass(cls):
        cls.ran, cls.kinds, cls.dist = made()

    def wants(self, kind):
        if kind not in self.kinds:
            self.skipTest('what makes the packages of the kind %s is not installed' % kind)

    def packed(self, name):
        """Unpacks a tar, and returns its folder."""
        place = folder(self.addCleanup)
        with tarfile.open(os.path.join(self.dist, name)) as files:
            files.extractall(place)
        self.assertEqual(len(os.listdir(place)), 1)
        return os.path.join(place, *os.listdir(place))

    def test_two_builds_have_the_same_bytes(self):
        self.assertEqual(self.ran.returncode, 0, self.ran.stderr.decode('utf-8', 'replace'))

    def test_each_says_what_is_claimed(self):
        found = []
        for name in os.listdir(self.dist):
            path = os.path.join(self.dist, name)
            if name.endswith('.whl'):
                with zipfile.ZipFile(path) as files:
                    told = [files.read(it) for it in files.namelist() if it.endswith('/PROVED')]
            elif name.endswith('.deb'):
                files = subprocess.run(['dpkg-deb', '--fsys-tarfile', path], stdout=subprocess.PIPE, check=True).stdout
                words = ['tar', '-xO', './usr/share/doc/%s/PROVED' % name.partition('_')[0]]
                told = [run(words, files).stdout]
            elif name != 'SHA256SUMS':
                with open(os.path.join(self.packed(name), 'PROVED'), 'rb') as file:
                    told = [file.read()]
            else:
                continue
            found.append(name)
            self.assertEqual(len(told), 1, name)
            self.assertIn(b'a trial, and nothing is claimed', told[0])
        self.assertEqual(len(found), {3: 3, 4: 4, 5: 8}[len(self.kinds)])

    def test_lintian_finds_nothing(self):
        self.wants('debian')
        if not shutil.which('lintian'):
            self.skipTest('lintian is not installed')
        debs = [os.path.join(self.dist, name) for name in os.listdir(self.dist) if name.endswith('.deb')]
        allowed = ['--allow-root'] if os.geteuid() == 0 else []
        self.assert_ends(run(['lintian', *allowed, '--fail-on', 'error,warning', *debs]))

    def test_crate_builds_without_a_registry(self):
        if not shutil.which('cargo'):
            self.skipTest('cargo is not installed')
        place, crate = folder(self.addCleanup), self.packed('patricia-%s.crate' % version())
        os.rename(crate, os.path.join(place, 'rust'))
        code, wanted = documented.examples()['main.rs']
        self.assertEqual(documented.printed('main.rs', code, place, []), wanted)

    def test_crate_says_which_sources_it_has(self):
        crate = self.packed('patricia-%s.crate' % version())
        with open(os.path.join(crate, 'src', 'proved', 'DIGEST'), encoding='utf-8') as file:
            digest = file.read()
        with open(os.path.join(crate, 'PROVED'), encoding='utf-8') as file:
            told = file.read()
        self.assertEqual(len(digest.split('\n')), 3)
        for line in digest.splitlines():
            self.assertIn('    %s\n' % line, told)

    def test_wheel_needs_nothing(self):
        self.wants('python')
        place = folder(self.addCleanup)
        with zipfile.ZipFile('%s/patricia-%s-cp38-abi3-linux_x86_64.whl' % (self.dist, version())) as files:
            files.extractall(place)
        code, wanted = documented.examples()['words.py']
        code += 'import importlib.metadata as of, patricia\nprint(patricia.__version__, of.version("patricia"))\n'
        wanted += '%s %s\n' % (version(), version())
        env = {name: value for name, value in os.environ.items() if not name.startswith('PATRICIA_')}
        ran = run([sys.executable, '-B', '-'], code.encode(), env={**env, 'PYTHONPATH': place}, cwd=place)
        self.assertEqual((ran.returncode, ran.stdout.decode()), (0, wanted), ran.stderr[-2000:])

    def test_rattle_has_whole_crates_and_no_tests(self):
        place = self.packed('patricia-rattle-%s.tar.gz' % version())
        listed = crates.listed(place)
        self.assertEqual(sorted(listed), sorted(os.listdir(os.path.join(place, 'crates'))))
        self.assertIn('patricia_tree', listed)
        ours = crates.listed()
        for name, crate in listed.items():
            self.assertEqual(crate, ours[name])
            self.assertLessEqual({*crate.uses} & {*ours}, {*listed})
            self.assertLessEqual({*os.listdir(os.path.join(place, 'crates', name))}, {'src', 'specs', 'proofs'})

    def test_an_empty_debian_runs_them(self):
        self.wants('debian')
        base = os.environ.get('PATRICIA_BASE')
        ran = run([sys.executable, '-B', root.__file__, '--dist', self.dist, *(['--base', base] if base else [])])
        if ran.returncode == root.UNABLE:
            self.skipTest(ran.stderr.decode('utf-8', 'replace')[-200:])
        self.assertEqual(ran.returncode, 0, (ran.stdout + ran.stderr).decode('utf-8', 'replace')[-4000:])
        self.assertIn(b'purged: nothing is left', ran.stdout)


if __name__ == '__main__':
    unittest.main()
