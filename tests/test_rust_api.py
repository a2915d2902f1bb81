"""The comparison of the Rust package's API with that of the crate that it takes the place of."""
import os
import shutil
import sys
from tests.support import ROOT, Case, each, folder, run

SOURCES = os.path.join(ROOT, 'rust', 'src')
COMPARE = os.path.join(ROOT, 'packaging', 'rust_api', 'compare.py')

# A change of a file, and the item that the comparison has to name then.
PLANTED = (
    ('bound_on_the_struct', 'map.rs', 'pub struct GenericPatriciaMap<K, V> {', 'pub struct GenericPatriciaMap<K: Bytes, V> {',
     'different: map GenericPatriciaMap'),
    ('lost_sized', 'map.rs', 'pub fn longest_common_prefix_len<Q>(&self, key: &Q) -> usize\n    where\n        Q: ?Sized + ',
     'pub fn longest_common_prefix_len<Q>(&self, key: &Q) -> usize\n    where\n        Q: ',
     'different: map GenericPatriciaMap::longest_common_prefix_len'),
    ('return_type', 'map.rs', '(&self, key: Q) -> Option<&V> {', '(&self, key: Q) -> Option<V> {',
     'different: map GenericPatriciaMap::get'),
    ('lost_impl', 'map/traits.rs', 'impl<K, V> Default for', 'impl<K, V> Other for', 'missing: map GenericPatriciaMap: Default'),
    ('mutable_self', 'map.rs', 'pub fn is_empty(&self)', 'pub fn is_empty(&mut self)',
     'different: map GenericPatriciaMap::is_empty'),
    ('extra_where', 'map.rs', "pub fn keys(&self) -> Keys<'_, K, V> {", "pub fn keys(&self) -> Keys<'_, K, V> where V: Clone {",
     'different: map GenericPatriciaMap::keys'),
    ('lost_method', 'set.rs', 'pub fn split_by_prefix<', 'pub fn split_under<', 'missing: set GenericPatriciaSet::split_by_prefix'),
    ('key_by_reference', 'map.rs', 'pub fn contains_key<Q: AsRef<K::Borrowed>>(&self, key: Q)',
     'pub fn contains_key<Q: AsRef<K::Borrowed>>(&self, key: &Q)', 'different: map GenericPatriciaMap::contains_key'),
    ('lost_clone', 'set/traits.rs', 'impl<T> Clone for', 'impl<T> Other for', 'missing: set GenericPatriciaSet: Clone'),
    ('associated_type', 'iter.rs', "type Item = (K, &'a V);", 'type Item = (K, V);', 'different: map Iter: Iterator::Item'),
    ('lost_export', 'map.rs', 'pub use crate::iter::{CommonPrefixesIter, ', 'pub use crate::iter::{',
     'missing: map CommonPrefixesIter'),
    ('private_method', 'set.rs', 'pub fn contains<', 'pub(crate) fn contains<', 'missing: set GenericPatriciaSet::contains'),
    ('bound_on_an_impl', 'map/traits.rs', 'impl<K, V: Clone> Clone for', 'impl<K: Bytes, V: Clone> Clone for',
     'different: map GenericPatriciaMap: Clone'),
    ('required_method', 'key.rs', '    fn strip_n_prefix(&self, n: usize) -> &Self;\n',
     '    fn strip_n_prefix(&self, n: usize) -> &Self;\n\n    fn more(&self);\n', 'different: root BorrowedBytes::more'),
    ('no_difference_any_more', 'map.rs', "-> IterPrefix<'a, K, V> {", "-> impl Iterator<Item = (K, &'a V)> {",
     'accepted, but there is no difference: map GenericPatriciaMap::iter_prefix'),
)

# Changes that are none of the API.
SAME = (
    ('other_names', 'map.rs', 'pub fn contains_key<Q: AsRef<K::Borrowed>>(&self, key: Q)',
     'pub fn contains_key<R: AsRef<K::Borrowed>>(&self, sought: R)'),
    ('bound_behind_where', 'map.rs', 'pub fn contains_key<Q: AsRef<K::Borrowed>>(&self, key: Q) -> bool {',
     'pub fn contains_key<Q>(&self, key: Q) -> bool where Q: AsRef<K::Borrowed>, {'),
    ('order_of_bounds', 'map.rs', 'Q: ?Sized + AsRef<K::Borrowed>', 'Q: AsRef<K::Borrowed> + ?Sized'),
    ('path', 'set/traits.rs', 'impl<T> Clone for', 'impl<T> core::clone::Clone for'),
    ('lifetime', 'set/iter.rs', "impl<T: Bytes> Iterator for Iter<'_, T> {", "impl<'x, T: Bytes> Iterator for Iter<'x, T> {"),
    ('private_addition', 'map.rs', '    /// Removes all entries.\n', '    fn more(&self) {}\n\n    /// Removes all entries.\n'),
)


def compared(sources, *words):
    """Runs the comparison of the sources in a folder."""
    return run([sys.executable, '-B', COMPARE, *words, sources])


class RustApi(Case):
    """The API of the Rust package, and what the comparison finds if it is changed."""

    def changed(self, file, old, new):
        """A folder with the sources, of which a part of one is replaced."""
        sources = os.path.join(folder(self.addCleanup), 'src')
        shutil.copytree(SOURCES, sources, ignore=shutil.ignore_patterns('proved'))
        path = os.path.join(sources, file)
        with open(path, encoding='utf-8') as opened:
            text = opened.read()
        self.assertIn(old, text)
        with open(path, 'w', encoding='utf-8') as opened:
            opened.write(text.replace(old, new, 1))
        return sources

    def test_the_api_is_that_of_the_original(self):
        ran = compared(SOURCES)
        self.assertEqual(ran.returncode, 0, ran.stdout.decode() + ran.stderr.decode())
        self.assertRegex(ran.stdout, rb'(?m)^accepted: map GenericPatriciaMap::iter_prefix: returns ')

    def test_additions_are_counted_and_listed(self):
        lines = compared(SOURCES, '--additions').stdout.decode().splitlines()
        at = next(n for n, line in enumerate(lines) if line.endswith(' additions'))
        self.assertEqual(len(lines[at + 1:]), int(lines[at].split()[0]))
        self.assertIn('map GenericPatriciaMap::try_insert', lines[at + 1:])

    @each(*PLANTED)
    def planted(self, _name, file, old, new, expected):
        ran = compared(self.changed(file, old, new))
        self.assertEqual((ran.returncode, ran.stderr), (1, b''))
        self.assertIn(expected, ran.stdout.decode().splitlines())

    @each(*SAME)
    def same(self, _name, file, old, new):
        ran = compared(self.changed(file, old, new))
        self.assertEqual(ran.returncode, 0, ran.stdout.decode())
