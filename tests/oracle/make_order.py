"""Calls about the order of keys, over maps and over sets, as lines for `test_scripts`.

The maps and sets have random keys over three items, among them keys that begin each other and the empty
one. They change between the questions: entries are taken at the ends and by a prefix, merged, kept in
part and loaded in order. What must be answered is what answer_lines.py says.
"""
import random

ROUNDS = 50
ITEMS = {'bytes': ['a', 'b', '%FF'], 'text': ['a', '%C3%A9', '%E3%81%82'], 'units': ['%00a', '%00b', '%01a']}
MOST_ITEMS = 5


def word(of, kind):
    """A random key, as a word of a line."""
    return ''.join(of.choice(ITEMS[kind]) for _ in range(of.randrange(MOST_ITEMS + 1))) or '*'


def words(of, kind, count):
    return [word(of, kind) for _ in range(count)]


def in_order(made):
    """The words in the order of what they stand for, each once."""
    return sorted(set(made), key=lambda each: each.replace('*', '').replace('a', '%61').replace('b', '%62'))


def numbered(of, made):
    """Words with values."""
    return ' '.join('%s %d' % (each, of.randrange(100)) for each in made)


def questions(of, kind):
    yield 'ends'
    yield 'range ' + ' '.join(words(of, kind, of.choice([1, 2, 2])))
    yield 'beside ' + ' '.join(words(of, kind, 4))
    yield 'count ' + ' '.join(words(of, kind, 4))
    yield 'fold ' + ' '.join(words(of, kind, 2))


def removals(of, kind):
    yield of.choice(['pop_first', 'pop_last'])
    yield 'cut ' + word(of, kind)
    yield 'len'


def map_calls(of, kind):
    for _ in range(ROUNDS):
        made = words(of, kind, 12)
        yield of.choice(['merge ', 'merge ', 'from_iter ']) + numbered(of, made)
        yield from questions(of, kind)
        yield from removals(of, kind)
        yield 'same ' + numbered(of, words(of, kind, 3))
        yield of.choice(['fill ', 'update ']) + numbered(of, words(of, kind, 5))
        yield 'retain %d' % of.choice([0, 10, 50])
        yield 'load ' + numbered(of, in_order(words(of, kind, 6)))
    yield 'clear'
    yield 'load ' + numbered(of, in_order(words(of, kind, 60)))
    yield 'load ' + numbered(of, words(of, kind, 6))


def set_calls(of, kind):
    for _ in range(ROUNDS):
        yield of.choice(['extend ', 'extend ', 'from_iter ']) + ' '.join(words(of, kind, 12))
        yield from questions(of, kind)
        for call in ('union', 'intersection', 'difference', 'subset', 'disjoint', 'same'):
            yield call + ' ' + ' '.join(words(of, kind, of.choice([1, 5, 20])))
        yield from removals(of, kind)
        yield 'retain %d' % of.choice([0, 1, 3])
        yield 'load ' + ' '.join(in_order(words(of, kind, 6)))


def made_in_order(of, kind):
    """The words that a map or a set is made of, in order throughout, and at first."""
    yield in_order(words(of, kind, 60))
    yield in_order(words(of, kind, 30)) + words(of, kind, 8)


def lines():
    of = random.Random(11)
    for kind in ITEMS:
        for call in map_calls(of, kind):
            yield '%s %s' % (kind, call)
        for call in set_calls(of, kind):
            yield '%s_set %s' % (kind, call)
    for kind in ITEMS:
        for made in made_in_order(of, kind):
            yield '%s from_iter %s' % (kind, numbered(of, made))
            yield '%s_set from_iter %s' % (kind, ' '.join(made))
