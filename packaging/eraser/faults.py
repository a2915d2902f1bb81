#!/usr/bin/env python3
"""Faults planted in the eraser, each of which the check has to refuse.

    packaging/eraser/faults.py [--crates FOLDER]

It prints what the check says of each, and ends with status 1 where it says nothing. A fault is an edit of the eraser's
text. It names a source, whose output it changes.
"""
import argparse
import os
import shutil
import subprocess
import sys
import tempfile
from typing import NamedTuple

sys.dont_write_bytecode = True
HERE = os.path.dirname(os.path.abspath(__file__))
sys.path.insert(0, HERE)
import check  # noqa: E402

RUN = """import sys
sys.path.insert(0, sys.argv[1])
import erase
crate, _, path = sys.argv[3].partition('/')
sys.stdout.buffer.write(erase.erased(erase.read(sys.argv[2], crate, 'src', path), crate, sys.argv[3]).encode())
"""


class Fault(NamedTuple):
    """A fault: what it does, the module of the eraser, the text there and the text in its place, and a source."""
    name: str
    module: str
    old: str
    new: str
    source: str


def loses(name, source, old, new=''):
    """A fault that leaves another text in the output of a source, as an eraser does that cuts too much."""
    return Fault(name, 'erase.py', '    return text\n', '    return text.replace(%r, %r, 1)\n' % (old, new), source)


FAULTS = [
    # what a rule of the eraser could do wrong
    Fault('a clause is kept', 'words.py', "CLAUSES = {'requires', 'ensures'}", "CLAUSES = {'requires'}",
          'patricia_distance/near.rt'),
    Fault('a clause ends at its first brace', 'words.py', 'if depth == 0 and sign in stops', 'if sign in stops',
          'patricia_core/tree/pruning.rt'),
    Fault('a ghost field is kept', 'words.py', "if word == 'ghost':", "if word == 'ghost' and text[at:at + 12] != "
          "'ghost valid:':", 'patricia_keys/keys/any.rt'),
    Fault('a ghost member takes what follows it', 'words.py', "';,' if not", "'' if not", 'patricia_codec/width.rt'),
    Fault('an attribute of Rust is lost', 'rules.py', "{'tactic', 'cycle'}", "{'tactic', 'cycle', 'inline'}",
          'patricia_nodes/path.rt'),
    Fault('a derive is lost', 'rules.py', "in ('Drop', 'Error')]", "in ('Drop', 'Error', 'Copy')]",
          'patricia_store/head.rt'),
    Fault('an impl is lost', 'rules.py', "words[trait].text == 'Model'", "words[trait].text in ('Model', "
          "'FusedIterator')", 'patricia_walks/under.rt'),
    Fault('a bound is lost', 'rules.py', "word.text == 'Drop' and", "word.text in ('Drop', 'Copy') and",
          'patricia_keys/keys.rt'),
    Fault('a comma is lost', 'rules.py', 'drop(words, bound, place - 1)', 'drop(words, bound, place)',
          'patricia_walks/walk.rt'),
    Fault('an import is lost', 'rules.py', "GONE = {'Model'}", "GONE = {'Model', 'PhantomData'}",
          'patricia_core/entries.rt'),
    Fault('a path leads to another crate', 'rules.py', 'word.text = ROOM + source.crate',
          "word.text = ROOM + 'patricia_core'", 'patricia_edits/pruning.rt'),
    Fault('a copy is no copy', 'rules.py', 'drop(words, value, after(words, value))',
          "words[value].text = 'panic!'", 'patricia_keys/keys/any.rt'),
    Fault('errors have the texts of others', 'rules.py', 'for place, text in texts:',
          'for place, text in zip([place for place, _ in texts], [text for _, text in reversed(texts)]):',
          'patricia_wire/error.rt'),
    Fault('an assertion of an example is lost', 'rules.py', "r'\\s*(requires|ensures)\\b'",
          "r'\\s*(requires|ensures|assert)\\b'", 'patricia_tree/map.rt'),
    Fault('the comment of a module is lost', 'rules.py', "told = re.match(r'(//[/!])", "told = re.match(r'(///)",
          'patricia_tree/lib.rt'),
    Fault('a comment is lost', 'words.py', "told.text.startswith('//!') or ", '', 'patricia_walks/along.rt'),
    Fault('a field is public', 'rules.py', "Word('name', 'pub(crate)')", "Word('name', 'pub')",
          'patricia_tree/map.rt'),
    # what an eraser could cut too much
    loses('a statement is lost', 'patricia_store/labels.rt', '    repeat(bytes, second, m);\n'),
    loses('two operands are swapped', 'patricia_keys/keys.rt', 'self.as_bytes().len() - rest.as_bytes().len()',
          'rest.as_bytes().len() - self.as_bytes().len()'),
    loses('a mut is lost', 'patricia_codec/encoder.rt', 'let mut out', 'let out'),
    loses('an arm is lost', 'patricia_nodes/arena/seek.rt', '            LinkRef::Child(id) => Some(id),\n'),
    loses('a question mark is lost', 'patricia_codec/record.rt', 'out.push(self.flags())?;',
          'out.push(self.flags());'),
    loses('a negation is lost', 'patricia_nodes/arena/room.rt', '!self.has_room(0)', 'self.has_room(0)'),
    loses('a comparison is strict', 'patricia_distance/distance_rows.rt', '*last <= limit', '*last < limit'),
    loses('a constant is another one', 'patricia_store/packed.rt', '281474976710655u64', '281474976710656u64'),
    loses('a return is lost', 'patricia_edits/insertion.rt', 'return Ok(insert_at(arena, &place, value));',
          'Ok(insert_at(arena, &place, value));'),
    loses('a branch is lost', 'patricia_store/store/growth.rt',
          ' else if bytes > self.room() {\n            self.reserve(0, bytes)\n        }'),
    loses('a function is lost', 'patricia_distance/distance_rows.rt',
          'fn one_more(distance: usize) -> usize {\n    distance.saturating_add(1)\n}\n'),
    loses('a text is another one', 'patricia_codec/encoder.rt', '"tree deeper than level 65535"',
          '"tree deeper than level 65536"'),
    loses('an operator is cut in two', 'patricia_nodes/arena/room.rt', '&& self.nodes.room()',
          '& &self.nodes.room()'),
    loses('a loan is shared', 'patricia_core/tree/pruning.rt', 'tree: &mut TreeParts<V>', 'tree: &TreeParts<V>'),
    loses('a lifetime is lost', 'patricia_many/many.rt', "arena: &'a NodeArena<V>", 'arena: &NodeArena<V>'),
    loses('a line is a comment', 'patricia_edits/removal.rt', '    cut_before(trail, passed);',
          '    // cut_before(trail, passed);'),
    loses('an example is no test', 'patricia_tree/set.rt', '/// ```\n', '/// ```ignore\n'),
]


def plant(fault, folder):
    """Writes the eraser with a fault to a new folder."""
    shutil.copytree(HERE, folder, ignore=shutil.ignore_patterns('__pycache__'))
    path = os.path.join(folder, fault.module)
    with open(path, encoding='utf-8') as file:
        text = file.read()
    if text.count(fault.old) != 1:
        raise ValueError('%s has %d times: %s' % (fault.module, text.count(fault.old), fault.old))
    with open(path, 'w', encoding='utf-8') as file:
        file.write(text.replace(fault.old, fault.new))


def output(fault, crates):
    """The output of the fault's source, by the eraser with the fault."""
    with tempfile.TemporaryDirectory(prefix='patricia-') as folder:
        place = os.path.join(folder, 'eraser')
        plant(fault, place)
        ran = subprocess.run([sys.executable, '-B', '-c', RUN, place, crates, fault.source], stdout=subprocess.PIPE,
                             check=True)
        return ran.stdout.decode()


def refused(fault, crates):
    """What the check says of the output of a fault."""
    crate, _, path = fault.source.partition('/')
    return list(check.refusals(fault.source, check.read(crates, crate, 'src', path).decode(), output(fault, crates)))


def main(words):
    parser = argparse.ArgumentParser(description='Plants faults in the eraser, which the check has to refuse.')
    parser.add_argument('--crates', default=os.path.join(check.ROOT, 'crates'), metavar='FOLDER')
    crates = parser.parse_args(words).crates
    kept = []
    for fault in FAULTS:
        said = refused(fault, crates)
        print('%s\n    %s' % (fault.name, '\n    '.join(said) or 'nothing'))
        kept += [fault.name] * (not said)
    print('%d faults, %d are not refused' % (len(FAULTS), len(kept)))
    return 1 if kept else 0


if __name__ == '__main__':
    sys.exit(main(sys.argv[1:]))
