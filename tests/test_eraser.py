"""The eraser, which turns the map's crates into ordinary Rust, and the check of its output. It needs no kit and no
cargo: packaging/eraser/README.md tells what both do.
"""
import os
import shutil
import sys
from tests.support import ROOT, Case, each, folder, run

ERASER = os.path.join(ROOT, 'packaging', 'eraser')
CRATES = os.path.join(ROOT, 'crates')
sys.path.insert(0, ERASER)
import check, erase, exceptions, expected, faults, tokens, words  # noqa: E401, E402

LISTED = exceptions.UNBOUNDED + exceptions.VISIBLE + [
    (entry[0], number) for number, entry in enumerate(exceptions.EXCEPTIONS, 1)]
# What the eraser makes of a source, but for the prelude. Each is a source of patricia_core.
ERASED = {
    'nested braces': (
        'fn f(n: usize) -> usize\n    requires { λ p. record { a = { n }; } }\n    ensures few { {n} }\n{\n    n\n'
        '}\n',
        'fn f(n: usize) -> usize {\n    n\n}\n'),
    'comments in antt': (
        'struct S {\n    a: u8,\n    ghost b: {\n      -- the one }\n      {- and {- another } -} -} List "}" },\n}\n',
        'struct S {\n    a: u8,\n}\n'),
    'the last ghost field': ('struct S { a: u8, ghost b: { ℕ } }\n', 'struct S { a: u8,}\n'),
    'primes in antt': ("fn f()\n    ensures { f' ≡ 'a → g'' }\n{\n    g();\n}\n", 'fn f() {\n    g();\n}\n'),
    'strings': (
        'fn f() {\n    g("ensures { } \\" //", r#"requires {"#, b"}\\\\");\n}\n',
        'fn f() {\n    g("ensures { } \\" //", r#"requires {"#, b"}\\\\");\n}\n'),
    'characters and lifetimes': (
        "fn f<'a>(x: &'a u8) {\n    g('{', '\\'', b'\"', '\\u{7b}', 'a');\n}\n",
        "fn f<'a>(x: &'a u8) {\n    g('{', '\\'', b'\"', '\\u{7b}', 'a');\n}\n"),
    'a clause in a comment': (
        '/// What it requires { is said.\n/* ensures { /* ghost */ */\nfn f() {}\n',
        '/// What it requires { is said.\n/* ensures { /* ghost */ */\nfn f() {}\n'),
    'a clause in an example': (
        '/// ```\n/// fn g(n: usize)\n///     requires { n < 2 }\n/// {\n/// }\n/// assert!(rt; f(rt.alloc()));\n'
        '/// ```\nfn f() {}\n',
        '/// ```text\n/// # use patricia::workbench::*;\n/// # fn main() -> Result<(), Fail> {\n/// fn g(n: usize)\n'
        '/// {\n/// }\n/// assert!(f(Global));\n/// # Ok(())\n/// # }\n/// ```\nfn f() {}\n'),
    'a trait': (
        'pub trait T: Drop {\n    // of a value\n    ghost a: { Self → ℕ };\n\n    /// How many.\n'
        '    fn n(&self) -> usize\n        ensures { result ≡ a self };\n}\n',
        'pub trait T: Sized {\n    /// How many.\n    fn n(&self) -> usize;\n}\n'),
    'bounds': (
        'fn f<K: Drop, V: Drop + Copy, W: Copy + Drop>() {}\n', 'fn f<K, V: Copy, W: Copy>() {}\n'),
    'derives': ('#[derive(Drop)]\nstruct S;\n\n#[derive(Clone, Drop, Copy)]\nstruct T;\n',
                'struct S;\n\n#[derive(Clone, Copy)]\nstruct T;\n'),
    'a model': (
        'struct S;\n\nimpl<V> Model for S {\n    ghost use A.{◌∷◌};\n\n    ghost Value = { ℕ };\n}\n\n'
        'fn f() {}\n',
        'struct S;\n\nfn f() {}\n'),
    'imports': (
        'use patricia_keys::Bytes;\nuse std::marker::{Brand, Model, PhantomData};\nuse std::marker::Model;\n'
        'use crate::tree::Tree;\n',
        'use crate::proved::patricia_keys::Bytes;\nuse crate::rt::marker::{Brand, PhantomData};\n'
        'use crate::proved::patricia_core::tree::Tree;\n'),
    'paths': (
        'fn f(x: std::mem::A) {\n    x.std();\n    let std = crate::a::std::B;\n}\n',
        'fn f(x: crate::rt::mem::A) {\n    x.std();\n    let std = crate::proved::patricia_core::a::std::B;\n}\n'),
    'an error': (
        '#[derive(Debug, Error)]\nenum E {\n    #[error("a")]\n    A,\n    #[error("b {0}")]\n    B(u8),\n}\n\n'
        'impl Model for E {\n    ghost Value = { ℕ };\n}\n',
        '#[derive(Debug)]\nenum E {\n    A,\n    B(u8),\n}\n\nimpl core::fmt::Display for E {\n'
        "    fn fmt(&self, f: &mut core::fmt::Formatter<'_>) -> core::fmt::Result {\n        match self {\n"
        '            E::A => f.write_str("a"),\n            E::B(at) => write!(f, "b {0}", at),\n        }\n    }\n'
        '}\n\nimpl core::error::Error for E {}\n'),
}
REFUSED = {
    'a clause without an expression': 'fn f()\n    requires n;\n',
    'antt without an end': 'ghost use A.{B;\n',
    'a comment without an end': 'fn f() {} /* /* */\n',
    'a model with code': 'impl Model for S {\n    fn f() {}\n}\n',
    'a clone that is no copy': 'impl Clone for S {\n    fn clone(&self) -> Result<Self, A> {\n        f()\n    }\n}\n',
    'an example without an end': '/// ```\nfn f() {}\n',
}


def erased(text):
    return erase.erased(text, 'patricia_core', 'patricia_core/none.rt')


def source(name):
    """The text of a source, by its path below `crates` without `src`."""
    crate, _, path = name.partition('/')
    return erase.read(CRATES, crate, 'src', path)


class Texts(Case):
    """What the eraser makes of short sources, and that the check agrees."""

    @each(*ERASED)
    def makes(self, name):
        text, due = ERASED[name]
        made = erased(text)
        prelude = 'use crate::rt::prelude::*;\n'
        self.assertEqual(made, prelude + due if due.startswith(('use ', 'pub ')) else prelude + '\n' + due)
        self.assertEqual(list(check.refusals('patricia_core/none.rt', text, made)), [])

    @each(*REFUSED)
    def stops(self, name):
        with self.assertRaises(words.Mistake):
            erased(REFUSED[name])

    def test_the_prelude_is_behind_the_comment_of_the_module(self):
        self.assertEqual(erased('//! A.\n#![tactic(auto)]\n\nmod a;\n'),
                         '//! A.\n\nuse crate::rt::prelude::*;\n\nmod a;\n')

    def test_words_are_the_whole_text(self):
        for crate, path in erase.sources(CRATES):
            text = erase.read(CRATES, crate, 'src', path)
            self.assertEqual(''.join(word.text for word in words.split(text)), text)

    @each(('a && b', 'a & &b'), ("'a'", "'a"), ('1.0', '1 .0'), ('a: :b', 'a::b'), ('"a b"', '"ab"'),
          ('/// a', '// a'), ('r"a"', 'r#"a"#'), ('b"a"', '"a"'), ('x', "x'"))
    def tokens_differ(self, one, other):
        self.assertNotEqual(*[[token.content for token in tokens.scan(text)] for text in (one, other)])

    def test_an_example_that_is_cut_is_refused(self):
        text = '/// ```\n/// f();\n/// g();\n/// ```\nfn f() {}\n'
        made = erased(text)
        for line in '/// f();\n', '/// # Ok(())\n', '/// # use patricia::workbench::*;\n':
            self.assertTrue(list(check.refusals('patricia_core/none.rt', text, made.replace(line, ''))), line)


class Exceptions(Case):
    """Each entry of the lists fits a source, and stops the eraser where it does not."""

    @each(*LISTED)
    def stops_where_it_does_not_fit(self, file, entry):
        text = source(file)
        erase.erased(text, file.partition('/')[0], file)
        with self.assertRaises(words.Mistake):
            erase.erased('fn f() {}\n', file.partition('/')[0], file)
        self.assertTrue(list(check.refusals(file, 'fn f() {}\n', 'use crate::rt::prelude::*;\n\nfn f() {}\n')), entry)

    @each(*range(1, len(exceptions.EXCEPTIONS) + 1))
    def is_in_the_output(self, number):
        file, old, new = exceptions.EXCEPTIONS[number - 1]
        made = erase.erased(source(file), file.partition('/')[0], file)
        self.assertIn(new, made)
        self.assertTrue(list(check.refusals(file, source(file), made.replace(new, old, 1) if new else made + old)))

    def test_an_exception_fits_once(self):
        given = tokens.scan('a; b; a; c;')
        self.assertIsNone(expected.excepted(given, 'a;', 'd;'))
        self.assertIsNone(expected.excepted(given, 'e;', 'd;'))
        self.assertEqual([token.text for token in expected.excepted(given, 'b;', 'd;')], 'a ; d ; a ; c ;'.split())

    def test_a_field_that_is_public_is_no_entry(self):
        name = 'patricia_tree/map.rt'
        text = source(name).replace('    tree: Tree', '    pub tree: Tree')
        with self.assertRaises(words.Mistake):
            erase.erased(text, 'patricia_tree', name)
        self.assertTrue(list(check.refusals(name, text, erase.erased(source(name), 'patricia_tree', name))))


class Faults(Case):
    """Faults planted in the eraser, each of which the check refuses."""

    @each(*[(number, fault.name) for number, fault in enumerate(faults.FAULTS)])
    def is_refused(self, number, _name):
        fault = faults.FAULTS[number]
        right = erase.erased(source(fault.source), fault.source.partition('/')[0], fault.source)
        wrong = faults.output(fault, CRATES)
        self.assertNotEqual(wrong, right, 'the fault changes nothing')
        self.assertTrue(list(check.refusals(fault.source, source(fault.source), wrong)))

    def test_faults_are_in_different_files(self):
        self.assertGreater(len({fault.source for fault in faults.FAULTS}), 20)


class Whole(Case):
    """All crates."""

    @classmethod
    def setUpClass(cls):
        cls.place = os.path.join(folder(cls.addClassCleanup), 'proved')
        cls.ran = cls.command('erase.py', '--to', cls.place)

    @staticmethod
    def command(name, *more):
        return run([sys.executable, '-B', os.path.join(ERASER, name), *more])

    def copied(self):
        """The output, in a folder of its own."""
        place = os.path.join(folder(self.addCleanup), 'proved')
        shutil.copytree(self.place, place)
        return place

    def test_the_check_agrees(self):
        said = b'%d files agree\n' % len(erase.sources(CRATES))
        self.assert_ends(self.ran, said)
        self.assert_ends(self.command('check.py', '--to', self.place), said)

    def test_the_same_bytes_again(self):
        place = self.copied()
        with open(os.path.join(place, 'left.rs'), 'w', encoding='utf-8') as file:
            file.write('what is left of another time\n')
        self.assertEqual(self.command('erase.py', '--unchecked', '--to', place).returncode, 0)
        self.assertEqual(check.listing(place), check.listing(self.place))
        for name in check.listing(place):
            self.assertEqual(check.read(place, name), check.read(self.place, name), name)

    def test_lines_have_no_junk(self):
        for name in check.listing(self.place):
            text = check.read(self.place, name).decode()
            self.assertTrue(text.endswith('\n') and not text.endswith('\n\n'), name)
            self.assertNotRegex(text, r'[ \t\r]\n|\n\n\n|\{\n\n|\n\n *\}', name)

    @each('mod.rs', 'DIGEST', 'patricia_core.rs', 'patricia_tree/map.rs')
    def refuses_without(self, name):
        place = self.copied()
        os.remove(os.path.join(place, name))
        ran = self.command('check.py', '--to', place)
        self.assert_ends(ran, b'other files than due: %s\n' % name.encode(), status=1)

    def changed(self, name, old, new):
        """The output with a change of a file."""
        place = self.copied()
        text = check.read(place, name).decode()
        self.assertIn(old, text)
        with open(os.path.join(place, name), 'w', encoding='utf-8') as file:
            file.write(text.replace(old, new, 1))
        return place

    @each(('mod.rs', 'pub mod patricia_model;\n', ''), ('DIGEST', 'sources ', 'sources 0'),
          ('DIGEST', 'eraser', 'erased'), ('patricia_keys/keys.rs', '//! Key kinds', '//! Kinds'))
    def refuses_a_change_of(self, name, old, new):
        said = next(check.refusals_of_all(CRATES, self.changed(name, old, new)))
        self.assertIn(name.rpartition('.')[0] or name, said)

    def test_both_lines_of_a_difference_are_told(self):
        ran = self.command('check.py', '--to', self.changed('patricia_tree/set.rs', 'self.map.len()', 'self.map.n()'))
        self.assertEqual(ran.returncode, 1)
        self.assertRegex(ran.stdout, rb'\Apatricia_tree/set.rt:\d+: len is due, and the output has n at line \d+\n\Z')

    def test_an_output_that_is_refused_replaces_nothing(self):
        place = self.copied()
        fault = next(fault for fault in faults.FAULTS if fault.name == 'a statement is lost')
        planted = os.path.join(folder(self.addCleanup), 'eraser')
        faults.plant(fault, planted)
        ran = run([sys.executable, '-B', os.path.join(planted, 'erase.py'), '--crates', CRATES, '--to', place])
        self.assertEqual(ran.returncode, 1)
        self.assertIn(b'the check refuses', ran.stderr)
        self.assertEqual(check.read(place, 'DIGEST'), check.read(self.place, 'DIGEST'))

    def test_a_source_that_is_not_there_stops_it(self):
        place = os.path.join(folder(self.addCleanup), 'crates')
        for crate in exceptions.CRATES:
            shutil.copytree(os.path.join(CRATES, crate, 'src'), os.path.join(place, crate, 'src'))
        os.remove(os.path.join(place, 'patricia_tree', 'src', 'guard.rt'))
        ran = self.command('erase.py', '--crates', place, '--to', os.path.join(place, 'proved'))
        self.assertEqual(ran.returncode, 1)
        self.assertIn(b'there is no patricia_tree/guard.rt', ran.stderr)
