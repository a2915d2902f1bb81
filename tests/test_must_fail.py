"""Tests of tests/must_fail.py, run by 'python3 -B -m unittest tests/test_must_fail.py'."""
import contextlib
import io
import os
import subprocess
import tempfile
import unittest

from tests import crates as listing
from tests import must_fail
from tests.mutants import due
from tests.mutants.checks import Check
from tests.mutants.edits import Edit, Sources, packs
from tests.mutants.running import judged

# Functions: what each takes and promises, its body, another right one, and what the judge says of that.
COUNTED = 'let mut n: usize = 0; for _ in items { n = n.wrapping_add(1); } n'
NONE = 'IsTrue result ↔ (items.now ≡ [])'
PROVED, OPEN = 'NOT REFUSED', 'TO READ, not shown false'
RIGHT_BODIES = {
    'one': ('a: u8, b: u8) -> u8', 'result ≡ a', 'a', 'if a == b { b } else { a }', PROVED),
    'kept': ('a: u8, b: u8) -> u8', 'result ≡ b', 'b', 'let kept = b; let _ = a; kept', PROVED),
    'least': ('a: u8, b: u8) -> u8', 'result ≡ min a b', 'if a < b { a } else { b }', 'if b <= a { b } else { a }',
              PROVED),
    'count': ('items: &[u8]) -> usize', 'result ≡ length items.now', 'items.len()', COUNTED, OPEN),
    'number': ('items: &[u8]) -> usize', 'result ≡ length items.now', 'items.len()', 'items.iter().len()', PROVED),
    'has_none': ('items: &[u8]) -> bool', NONE, 'items.is_empty()',
                 'let mut none = true; for _ in items { none = false; } none', OPEN),
    'twice': ('a: u8) -> u16', 'result ≡ 2 * a', '2 * (a as u16)', '(a as u16) << 1', PROVED),
}
SOURCE = '''#![tactic(auto)]

ghost use Rattle.std.specs.Prelude.{◌≡◌, ◌*◌, IsTrue, ◌↔◌, [], length, min};
''' + ''.join('\npub fn %s(%s\n    ensures { %s }\n{\n    %s // %s\n}\n' % (name, *body[:3], name)
              for name, body in RIGHT_BODIES.items())
DIFFER = ('./proofs/low/f/Answers.antt:9:29: error: `returns`: as printed, the two types %s where one has\n'
          '  %s and the other has `%s` (found)\nonly=1 proved=0')
STATEMENT = DIFFER % ('differ only', '`take 1 c.args.bytes` (expected)', 'c.args.bytes')
# a local in place of a parameter
NAME = DIFFER % ('differ only', '`c.args.top` (expected)', 'c.if-at-eq0.first')
VALUES = '''note: src/low.rt:97:9: it is not proved that what `take` requires holds at this call (`take-requires`); the
  facts known there allow values at which this goal is false
fn small::low::taken: not proved
only=1 proved=0'''
# What a check said, and of the goal that fails its function, its name, if it is false, and if by names alone.
SAID = {
    VALUES: ('low::taken', 'take-requires', True, False),
    STATEMENT: ('low::f', 'returns', False, False),
    NAME: ('low::f', 'returns', False, True),
    DIFFER % ('first differ', '`c.fill-2.result` (expected), right after `length`,', 'c.args.n'):
        ('low::f', 'returns', False, True),
    './proofs/low/Pair/cut/Answers.antt:9:29: error: `returns`: `rw`: no occurrence of\n  the path\'s left endpoint':
        ('low::Pair::cut', 'returns', False, False),
    './proofs/low/+gone/Answers.antt:3:1: error: `returns`: `Goals` has no field `early`':
        ('low::gone', 'returns', False, True),
    './proofs/low/f/Answers.antt:3:1: error: `returns`: `search`: no proof of `a`: nothing in scope has no `b`':
        ('low::f', 'returns', False, False),
    './proofs/Laws.antt:3:4: error: `ordered`: a tuple is checked\nfn small::law: not proved':
        ('-', 'ordered', False, False),
    'note: src/low.rt:65:5: it is not proved that what the function ensures holds (`returns-clause-value`)\nnote: a '
    'goal may be false\nfn small::low::is_empty: no proof: expected answers':
        ('low::is_empty', 'returns-clause-value', False, False),
}
CALLS = '''note: src/low.rt:5:1: it is not proved that what the function ensures holds when it returns (`returns`)
fn small::low::caller: no proof: `search` did not prove `returns`; it calls `small::low::callee`, which is not proved
note: `search` has not tried the goals of `small::low::other`, which wait for a callee's proof: some may be open after
  it
only=2 proved=0'''


class Small(unittest.TestCase):
    """A repository in a temporary folder, of crates of which one uses another."""

    def setUp(self):
        room = tempfile.TemporaryDirectory()
        self.addCleanup(room.cleanup)
        self.top = room.name
        self.write('crates.txt', 'small:\nhigh: small\nbare:\n')
        self.write('crates/small/src/lib.rt', SOURCE)
        self.write(due.RECORD, '{}')

    def write(self, path, text):
        path = os.path.join(self.top, path)
        os.makedirs(os.path.dirname(path), exist_ok=True)
        with open(path, 'w', encoding='utf-8') as file:
            file.write(text)
        return path

    def edit(self, name, function, new, goal=None):
        old = '    %s // %s' % (RIGHT_BODIES[function][2], function)
        line = 'goal: %s\n' % (function + ' returns' if goal is None else goal)
        text = 'file: src/lib.rt\nold: %s\nnew:     %s\n%s' % (old, new, line)
        return Edit(self.write('crates/small/must-fail/%s.edit' % name, text))

    def sources(self):
        return Sources(listing.listed(self.top)['small'], self.top + '/crates/small')


class Judged(Small):
    def test_failures_have_a_function_and_a_kind(self):
        for said, failure in SAID.items():
            found = [(x.function, x.name, x.is_false, x.is_by_name) for x in Check(said).failures]
            self.assertEqual(found, [failure], said)
        self.assertEqual(Check(CALLS).waiting, {'low::caller', 'low::other'})

    def test_a_goal_counts_by_values_or_once_it_is_read(self):
        for said, new, goal, result in (
                (VALUES, '0', 'low::taken take-requires', 'refuted'),
                (VALUES, 'for _ in a {} 0', 'low::taken take-requires', None),
                (VALUES.replace('only', 'rattle: only'), '0', 'low::taken take-requires', None),
                (STATEMENT, '0', 'low::f returns', None), (STATEMENT, '0', 'low::f returns read', 'read'),
                (NAME, '0', 'low::f returns read', None), (STATEMENT + '\n' + NAME, '0', 'low::f returns read', None),
                (NAME, '0', 'low::f early read', None)):
            self.assertEqual(judged(self.edit('any', 'one', new, goal), Check(said))[0], result, (said, goal))

    def test_right_bodies_are_told_from_mutants(self):
        for name, (_, _, _, new, _) in RIGHT_BODIES.items():
            self.edit(name, name, new)
        self.edit('wrong', 'one', '0')
        self.edit('goal_that_is_proved', 'kept', '0', 'kept returns-in-Some')
        self.edit('no_goal', 'twice', '0', '')
        said = io.StringIO()
        with contextlib.redirect_stdout(said):
            status = must_fail.main(['small'], self.top)
        lines = [x.removeprefix('must-fail small/') for x in said.getvalue().split('\n')[:-1]]
        told = dict(x.split('.edit: ') for x in lines if '.edit: ' in x)
        kinds = {name: told[name].split(':')[0] for name in told}
        self.assertEqual(kinds, {**{name: body[4] for name, body in RIGHT_BODIES.items()}, 'wrong': 'refuted',
                                 'goal_that_is_proved': 'THE GOAL kept returns-in-Some DOES NOT FAIL, but',
                                 'no_goal': 'NAMES NO GOAL'})
        self.assertIn('returns of twice', told['no_goal'])
        self.assertEqual((status, lines[-1]), (1, '1 passed, 9 failed'))


class Searched(Small):
    def left(self, goal, *names):
        """The names of the answers that are left for a goal, of a proof that has these."""
        self.write('crates/small/proofs/one/Answers.antt', 'use Goals as goal\n' + ''.join(
            '\npub %s : goal.%s\n%s g c = refl\n' % (name, name, name) for name in names))
        texts = self.edit('any', 'one', '0', 'one %s searched read' % goal).texts(self.sources(), {})
        found = texts['proofs/one/Answers.antt']
        self.assertTrue(found.startswith('use Goals as goal\n'))
        left = [x.split(' : ')[0] for x in found.split('pub ')[1:]]
        self.assertEqual(found.count('refl'), len(left))
        return left

    def test_the_answers_to_a_goal_and_to_all_or_each_of_its_clauses_are_taken_out(self):
        clauses = 'returns-clause-ok', 'returns-clause-err'
        self.assertEqual(self.left('returns', 'init', 'returns', 'returns-in-Ok'), ['init', 'returns-in-Ok'])
        self.assertEqual(self.left('returns-clause-ok', 'init', 'returns', 'early'), ['init', 'early'])
        self.assertEqual(self.left('returns-clause-ok', *clauses, 'early'), ['returns-clause-err', 'early'])
        self.assertEqual(self.left('returns', 'init', *clauses, 'early'), ['init', 'early'])
        self.assertEqual(self.left('returns', 'init', 'early'), ['init', 'early'])


class Packs(Small):
    def test_edits_of_one_function_stand_in_two_packs(self):
        for name, function, new in ('a', 'one', '1'), ('b', 'one', '2'), ('c', 'kept', '3'):
            self.edit(name, function, new)
        names = [[x.name for x in pack.edits] for pack in packs(self.sources().edits(), self.sources())]
        self.assertEqual(names, [['a.edit', 'c.edit'], ['b.edit']])

    def test_a_promise_stands_apart_where_nothing_else_names_the_function(self):
        edit = self.edit('code', 'one', '0')
        edit.changes = [('src/lib.rt', 'result ≡ a ', 'result ≡ b ')]
        self.assertTrue(edit.is_apart(self.sources()))
        self.write('crates/small/src/lib.rt', SOURCE + 'fn other() { one(1, 2); }\n')
        self.assertFalse(edit.is_apart(self.sources()))


class Due(Small):
    def setUp(self):
        super().setUp()
        for crate in 'small', 'high':
            self.write('crates/%s/must-fail/any.edit' % crate, '')
        self.git('init', '-q')
        self.commit()

    def git(self, *words):
        subprocess.run(['git', '-c', 'user.name=tests', '-c', 'user.email=tests@localhost', *words], cwd=self.top,
                       check=True, capture_output=True)

    def commit(self):
        self.git('add', '.')
        self.git('commit', '-qm', 'all')

    def due(self):
        return due.names(self.top, listing.listed(self.top))

    def test_crates_are_due_until_all_of_their_mutants_were_good(self):
        self.assertEqual(self.due(), ['small', 'high'])
        due.record(self.top, {x: (1, 2) for x in self.due()})
        self.assertEqual((due.recorded(self.top)['high']['read'], self.due()), (2, []))
        self.write('crates/high/proofs/a.antt', '')
        self.assertEqual(self.due(), ['high'])
        self.write('crates/small/must-fail/a.edit', '')
        self.assertEqual(self.due(), ['small/a', 'high'])
        self.commit()
        due.record(self.top, {'high': (1, 2)})
        self.assertEqual(self.due(), ['small/a'])
        os.remove(os.path.join(self.top, 'crates/small/must-fail/any.edit'))
        self.assertEqual(self.due(), ['small/a'])
        self.write('crates/small/src/lib.rt', '')
        due.record(self.top, {'small': (0, 0)})
        self.assertEqual(self.due(), ['small', 'high'])

    def test_all_are_due_by_another_kit_or_where_the_history_lacks_the_commit(self):
        due.record(self.top, {'small': (1, 2), 'high': (1, 2)})
        with open(os.path.join(self.top, due.RECORD), encoding='utf-8') as file:
            text = file.read()
        for old in due.kit(self.top), due.recorded(self.top)['small']['commit']:
            self.write(due.RECORD, text.replace(old, 'another'))
            self.assertEqual(self.due(), ['small', 'high'])


if __name__ == '__main__':
    unittest.main()
