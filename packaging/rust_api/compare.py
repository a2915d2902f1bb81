"""Compares the public API of the Rust package with that of `patricia_tree` 0.10.2, which is in `original.txt`.

    python3 -B packaging/rust_api/compare.py [--additions] [SOURCES]

It prints what is missing, what is different, and the differences for which `accepted.txt` has a reason. The exit status
is 1 if something is missing or different without a reason, or if a reason has no difference any more.
"""
import argparse
import os
import sys

sys.path.insert(0, os.path.dirname(os.path.abspath(__file__)))
from rust_items import (Item, Scope, associated_type, behind, declared_type, function, head,  # noqa: E402
                        implementation, tokens, until, whole_item, without_paths)

HERE = os.path.dirname(os.path.abspath(__file__))
SOURCES = os.path.join(HERE, '..', '..', 'rust', 'src')
# Which module of the package shows the items of a file.
FILES = {'cursor.rs': 'map', 'iter.rs': 'map', 'iter_mut.rs': 'map', 'key.rs': 'root', 'errors.rs': 'root',
         'lib.rs': 'root', 'map.rs': 'map', 'set.rs': 'set', 'serde.rs': 'serde'}
# The files whose names are public without a `pub use`.
OWN = {'lib.rs', 'map.rs', 'set.rs'}
SERDE = {'GenericPatriciaMap': 'map', 'GenericPatriciaSet': 'set'}


class Source:
    """The items of a file."""

    def __init__(self, module, text):
        self.module, self.words, self.items = module, tokens(text), []
        # the types of the file, what it shows of others, and what an `impl` of a trait has to have
        self.types, self.uses, self.required = set(), set(), set()
        self.read(0, len(self.words))

    def add(self, name, form):
        self.items.append(Item(self.module, name, form))

    def read(self, at, end):
        """Reads the items between two places."""
        while at < end:
            at = self.item(at, self.words[at] == 'pub' and self.words[at + 1] != '(')

    def item(self, at, is_public):
        """Reads an item, and returns the place behind it."""
        words = self.words
        start = at + is_public
        end = whole_item(words, at)
        if words[at] == '#':
            return behind(words, words.index('[', at))
        if words[at] == 'impl':
            self.implementation(at)
        elif is_public and words[start] in ('struct', 'enum', 'trait'):
            name, form = declared_type(words, start)
            self.types.add(name)
            self.add(name, form)
            if words[start] == 'trait':
                self.members(name, None, words[until(words, start, ('{',)) + 1:end - 1])
        elif is_public and words[start] == 'type':
            self.alias(words[start + 1:end - 1])
        elif is_public and words[start] in ('use', 'mod'):
            end = words.index(';', at) + 1
            self.use(words[start:end])
        elif 'use' in words[at:at + 5]:
            end = words.index(';', at) + 1
        return end

    def use(self, words):
        """Reads a `pub use` or a `pub mod`."""
        if words[0] == 'mod':
            self.add('mod ' + words[1], 'mod ' + words[1])
            return
        names = [word for word in words if word[0].isupper()]
        self.uses.update(names)
        for name in names:
            self.add('use ' + name, 'use ' + name)

    def alias(self, words):
        words = without_paths(words)
        at = words.index('=')
        scope = Scope()
        scope.declare(words[2:at - 1])
        self.types.add(words[0])
        self.add(words[0], scope.form('type %s = %s' % (words[0], ' '.join(words[at + 1:]))))

    def implementation(self, at):
        """Reads an `impl`."""
        scope, of_trait, of_type = implementation(head(self.words, at)[1:])
        end = whole_item(self.words, at)
        body = self.words[until(self.words, at, ('{',)) + 1:end - 1]
        name = of_type[0] if of_type[0].isidentifier() else ' '.join(of_type)
        if of_trait:
            shown = scope.form(' '.join(of_trait)).split(' where ')[0]
            name = '%s: %s' % (scope.form(' '.join(of_type)).split(' where ')[0] if name != of_type[0] else name, shown)
            self.add(name, scope.form('impl %s for %s' % (' '.join(of_trait), ' '.join(of_type))))
            # what a trait's methods are, the trait says
            body = self.associated(body)
        self.members(name, scope, body)

    @staticmethod
    def associated(body):
        """The associated types of a body."""
        kept, at = [], 0
        while at < len(body):
            end = whole_item(body, at)
            if body[at] == 'type':
                kept.extend(body[at:end])
            at = end
        return kept

    def members(self, owner, scope, body):
        """Reads the members of an `impl` or, if there is no scope, of a trait."""
        at = 0
        while at < len(body):
            if body[at] == '#':
                at = at + 1 + body[at:].index(']')
                continue
            end = whole_item(body, at)
            is_public = body[at] == 'pub' and body[at + 1] != '('
            start = at + is_public
            if body[start] == 'fn' and (is_public or scope is None):
                name, form = function(head(body, start)[1:], scope)
                self.add('%s::%s' % (owner, name), form)
                if scope is None and body[end - 1] == ';':
                    self.required.add('%s %s::%s' % (self.module, owner, name))
            elif body[start] == 'type':
                self.add('%s::%s' % (owner, body[start + 1]), associated_type(body[start:end - 1], scope))
            at = end


def listing(folder):
    """The hand-written files, each by its path below the folder, with its module and text."""
    for path, folders, files in os.walk(folder):
        folders[:] = sorted(set(folders) - {'proved'})
        for file in sorted(files):
            shown = os.path.relpath(os.path.join(path, file), folder)
            module = FILES.get(shown) or {'map': 'map', 'set': 'set'}.get(shown.split(os.sep)[0])
            if module and file.endswith('.rs'):
                with open(os.path.join(path, file), encoding='utf-8') as opened:
                    yield shown, module, opened.read()


def package(folder):
    """The public items of the package, by module and name, and the names that an `impl` of a trait has to have."""
    read = [(shown, Source(module, text)) for shown, module, text in listing(folder)]
    public = {'root': set(), 'map': set(), 'set': set()}
    for shown, source in read:
        if source.module in public:
            public[source.module] |= source.uses | (source.types if shown in OWN else set())
    items = {}
    for _, source in read:
        for item in source.items:
            owner = item.name.split(':')[0].split('<')[0].strip()
            module = SERDE.get(owner) if item.module == 'serde' else item.module
            is_shown = module and (owner in public[module] or ' ' in owner or owner in ('Vec', 'String', 'str'))
            if is_shown or item.name.startswith(('use ', 'mod ')):
                items.setdefault('%s %s' % (module, item.name), set()).add(item.form)
    return items, set().union(*(source.required for _, source in read))


def lines_of(name):
    with open(os.path.join(HERE, name), encoding='utf-8') as file:
        return [line.rstrip('\n') for line in file if line.strip() and not line.startswith('#')]


def original():
    """The items of the original, by module and name."""
    items = {}
    for line in lines_of('original.txt'):
        name, form = line.split(' | ')
        items.setdefault(name, set()).add(form)
    return items


def compared(folder):
    """What is missing, and what is different in which way, and what there is besides."""
    (here, required), there = package(folder), original()
    found = {}
    for name, forms in there.items():
        if name not in here:
            found[name] = 'missing: %s\n  %s' % (name, ' / '.join(sorted(forms)))
        elif not forms <= here[name]:
            texts = [' / '.join(sorted(side)) for side in (forms, here[name])]
            found[name] = 'different: %s\n  original: %s\n  here:     %s' % (name, *texts)
    for name in required - set(there):
        found[name] = 'different: %s\n  an implementation of the trait has to have it, and the original has none' % name
    return found, sorted(set(here) - set(there))


def main():
    parser = argparse.ArgumentParser(description=__doc__.split('\n')[0])
    parser.add_argument('--additions', action='store_true', help='list what the original does not have')
    parser.add_argument('sources', nargs='?', default=SOURCES)
    options = parser.parse_args()
    accepted = dict(line.split(' | ') for line in lines_of('accepted.txt'))
    found, additions = compared(options.sources)
    wrong = [text for name, text in sorted(found.items()) if name not in accepted]
    lost = ['accepted, but there is no difference: %s' % name for name in sorted(accepted) if name not in found]
    known = ['accepted: %s: %s' % (name, reason) for name, reason in sorted(accepted.items()) if name in found]
    print('\n'.join(wrong + lost + known + ['%d additions' % len(additions)]))
    if options.additions:
        print('\n'.join(additions))
    sys.exit(1 if wrong or lost else 0)


if __name__ == '__main__':
    main()
