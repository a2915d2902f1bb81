"""Searches for keys that are few edits from another one, as lines for `test_scripts`.

Maps of random keys over three items, among them keys that begin each other and the empty one, change
between the searches. Most keys that are sought are a stored one with some edits. What must be
answered is what answer_lines.py says, which measures each key of the map.
"""
import random

ROUNDS = 60
ITEMS = {'bytes': ['a', 'b', '%FF'], 'text': ['a', '%C3%A9', '%E3%81%82'], 'units': ['%00a', '%00b', '%01a']}


def key(of, kind, most):
    """A random key, as a list of items."""
    return [of.choice(ITEMS[kind]) for _ in range(of.randrange(most + 1))]


def edited(of, kind, items, edits):
    """The key after so many edits."""
    items = list(items)
    for _ in range(edits):
        at = of.randrange(len(items) + 1)
        how = of.randrange(3)
        if how == 0 or at == len(items):
            items.insert(at, of.choice(ITEMS[kind]))
        elif how == 1:
            del items[at]
        else:
            items[at] = of.choice(ITEMS[kind])
    return items


def word(items):
    return ''.join(items) or '*'


def calls(of, kind):
    stored = []
    for n in range(ROUNDS):
        for _ in range(8):
            # one in four goes on where another one ends
            front = of.choice(stored) if stored and of.randrange(4) == 0 else []
            stored.append(front + key(of, kind, 8))
        yield 'insert ' + ' '.join('%s %d' % (word(k), n) for k in stored[-8:])
        for _ in range(6):
            near = edited(of, kind, of.choice(stored), of.randrange(4)) if of.randrange(5) else key(of, kind, 12)
            yield 'within %s %d' % (word(near), of.choice([0, 1, 1, 2, 2, 3, 5]))
        gone = of.sample(stored, 3)
        yield 'remove ' + ' '.join(map(word, gone))
        stored = [k for k in stored if k not in gone]


def lines():
    of = random.Random(7)
    for kind in ITEMS:
        for call in calls(of, kind):
            yield '%s %s' % (kind, call)
