#!/usr/bin/env python3
"""Applies mutants to the Rust package that meet every contract. A test of the package must fail for each.

    tests/planted.py            all of them, in about two minutes
    tests/planted.py WORD..     those whose descriptions have one of the words

It works in a copy in out/planted, where cargo keeps its builds, and needs no kit. A mutant replaces a text of an erased
source, which must occur there once.
"""
import os
import re
import shutil
import sys
from typing import NamedTuple

ROOT = os.path.dirname(os.path.dirname(os.path.abspath(__file__)))
sys.path.insert(0, ROOT)
sys.dont_write_bytecode = True
from tests.rust import package  # noqa: E402


class Plant(NamedTuple):
    """The mistake, the file of the erased sources, the text and its replacement, and the test that must fail: the name
    of its file, and its own name or a part of it."""
    what: str
    file: str
    old: str
    new: str
    test: str
    name: str


MAP, CORE, CODEC, NODES = 'patricia_tree/map/', 'patricia_core/tree/', 'patricia_codec/', 'patricia_nodes/arena/'
PLANTS = [
    Plant('a refused extend clears the map', MAP + 'bulk.rs', 'Err(_) => return Err(AllocError),', '''Err(_) => {
                    self.clear();
                    return Err(AllocError);
                }''', 'refused', 'a_refused_extend_of_the_proved_map'),
    Plant('a refused load clears the map', MAP + 'sorted.rs', '''                return Err(error);
            }
        }
        drop(load);''', '''                drop(load);
                if let LoadError::Memory = error {
                    self.clear();
                }
                return Err(error);
            }
        }
        drop(load);''', 'refused', 'a_refused_load_keeps'),
    Plant('a refused retain clears the map', MAP + 'retain.rs', '        retain_all(&mut pruner, f)\n', '''\
        let result = retain_all(&mut pruner, f);
        drop(pruner);
        if result.is_err() {
            self.clear();
        }
        result
''', 'refused', 'a_refused_retain_keeps'),
    Plant('retain asks twice at what it removes', MAP + 'retain.rs', '''        pruner.remove()?;
    }
    Ok(())''', '''        let _again = pruner.ask(f);
        pruner.remove()?;
    }
    Ok(())''', 'calls', 'retain_asks_in_key_order'),
    Plant('a value is made early', MAP + 'changes.rs', '''        if self.contains_key(key) {
            return Ok(false);
        }
        match self.insert(key, f()) {''', '''        let value = f();
        if self.contains_key(key) {
            return Ok(false);
        }
        match self.insert(key, value) {''', 'calls', 'values_are_made_at_new_keys'),
    Plant('pop_first fails without a refusal', MAP + 'ends.rs', '        self.tree.pop_first()\n', '''\
        if self.len() > 3 {
            return Err(AllocError);
        }
        self.tree.pop_first()
''', 'calls', 'ends_and_neighbours'),
    Plant('look-ups of many keys allocate', MAP + 'many.rs', '''        self.tree.get_many(&keys[..n], &mut found[..n]);
        n''', '''        let _room = Vec::<u8>::with_capacity(crate::rt::alloc::Global, 8);
        self.tree.get_many(&keys[..n], &mut found[..n]);
        n''', 'refused', 'look_ups_of_a_map_make_no_request'),
    Plant('a merge fails at a shared entry', CORE + 'merging.rs', '''\
            merge_at(&mut tree.arena, id, value, f);
            Ok(())''', '''\
            merge_at(&mut tree.arena, id, value, f);
            if trail.len() > 1 { Err(AllocError) } else { Ok(()) }''', 'calls', 'merge_with_asks_at_shared_keys'),
    Plant('a cursor passes over the entry that was refused', 'patricia_tree/entries.rs', '''\
        match self.go_on()? {
            Some(key) => Ok(Some((key, self.there()))),
            None => Ok(None),
        }''', '''        match self.go_on() {
            Ok(Some(key)) => Ok(Some((key, self.there()))),
            Ok(None) => Ok(None),
            Err(error) => {
                let _passed = self.go_on();
                Err(error)
            }
        }''', 'refused', 'iter_mut_goes_on'),
    Plant('values end where 100,000 siblings wait', 'patricia_walks/value_progress.rs', '''\
        if sibling.get().is_some() {
            self.stack.push(sibling)?;''', '''\
        if sibling.get().is_some() {
            if self.stack.len() >= 100_000 {
                return Err(AllocError);
            }
            self.stack.push(sibling)?;''', 'deep', 'siblings_wait_at_each_level'),
    Plant('a search visits what is too far', 'patricia_walks/near.rs', 'self.cursor.skip(len)', 'drop(len)',
          'refused', 'a_search_makes_no_request'),
    Plant('an insert fails where its relocation is refused', NODES + 'room.rs',
          '            self.settle(alloc);\n', '''\
            if self.nodes.len() >= FEWEST_TO_RELOCATE {
                self.relocate(alloc)?;
            }
            self.edits = 0;
''', 'refused', 'an_insert_is_done_without_a_relocation'),
    Plant('a value that retain removes is never dropped', CORE + 'pruning.rs', 'let _old = self.tree.value.take();',
          'core::mem::forget(self.tree.value.take());', 'panics', 'retain_has_removed'),
    Plant('the decoder makes room by the values that are claimed', CODEC + 'decoder.rs', '''\
start::<W, V>(alloc, bytes)?;
    while''', '''start::<W, V>(alloc, bytes)?;
    builder.nodes.reserve(given, 0)?;
    while''', 'hostile', 'counts_that_claim_much'),
    Plant('the decoder makes room for the longest label', CODEC + 'builder.rs', '''\
        self.label.extend_from_slice(record.label)?;''', '''        self.nodes.reserve(0, 65_535)?;
        self.label.extend_from_slice(record.label)?;''', 'hostile', 'damaged_encodings'),
    Plant('the decoder counts sixteen children at the most', CODEC + 'counts.rs', 'count.saturating_add(1);',
          'count.saturating_add(1).min(16);', 'nodes', 'children_are_counted'),
    Plant('the decoder makes two places at least', CODEC + 'builder.rs', 'count.max(1)', 'count.max(2)',
          'nodes', 'a_tree_that_is_read'),
    Plant('the decoder leaves the last place free', CODEC + 'builder.rs', 'if next.index() < len',
          'if next.index() + 1 < len', 'nodes', 'a_tree_that_is_read'),
]
# Files of tests whose hooks are there in the workbench alone.
OF_WORKBENCH = 'refused', 'nodes'


def planted(made, plant):
    """The texts of a plant's file: as it is, and with the plant."""
    path = os.path.join(package.proved(made), plant.file)
    with open(path, encoding='utf-8') as file:
        text = file.read()
    if text.count(plant.old) != 1:
        sys.exit('%s occurs %d times in %s' % (plant.old, text.count(plant.old), plant.file))
    return path, text, text.replace(plant.old, plant.new)


def write(path, text):
    with open(path, 'w', encoding='utf-8') as file:
        file.write(text)


def run(made, room, plant):
    """What cargo writes of a plant's test, and whether it passes, or None where it does not run."""
    words = ['test', '--test', plant.test, '--', plant.name]
    ran = package.cargo(made, words, room, workbench=plant.test in OF_WORKBENCH, output=True)
    return ran.stdout, ran.returncode == 0 if re.search(r'^running [1-9]', ran.stdout, re.M) else None


def main(words):
    room = os.path.join(ROOT, 'out', 'planted')
    made = os.path.join(room, 'rust')
    os.makedirs(room, exist_ok=True)
    shutil.rmtree(made, ignore_errors=True)
    package.copy(made)
    package.erase(made)
    failed = 0
    plants = [plant for plant in PLANTS if not words or any(word in plant.what for word in words)]
    for plant in plants:
        path, text, wrong = planted(made, plant)
        write(path, wrong)
        said, passes = run(made, room, plant)
        write(path, text)
        failed += passes is not False
        print({False: 'refused', True: 'NOT REFUSED', None: 'NOT RUN'}[passes], plant.what, sep=': ', flush=True)
        if passes is not False:
            print(said[-2000:])
    for test, name in sorted({(plant.test, plant.name) for plant in plants}):
        said, passes = run(made, room, Plant('', '', '', '', test, name))
        if not passes:
            failed += 1
            print('it does not pass without a plant: %s %s\n%s' % (test, name, said[-2000:]))
    print('%d mutants, %d not detected' % (len(plants), failed))
    return 1 if failed else 0


if __name__ == '__main__':
    sys.exit(main(sys.argv[1:]))
