"""Calls over labels of each length that matters, as lines for `test_scripts`.

A label of at most 30 bytes stands in its node, and a longer one in memory of its own. Labels of 1
to 33 bytes, and of about 255, are linked before, behind and below others, cut, joined again, looked
up, walked over, along and under, copied, split by prefixes, and removed.
"""
LENGTHS = [*range(1, 34), *range(254, 258)]
# a front or a rest of so many bytes is cut off a label of about 255
NEAR = [1, 2, 3, *range(28, 34)]


def label(kind, length):
    """The items of a label of so many bytes."""
    if kind == 'bytes':
        return ['abcdefghi'[n % 9] for n in range(length)]
    return ['a'] * (length % 3) + ['あ'] * (length // 3)


def lesser(item):
    return 'ぁ' if item == 'あ' else 'A'


def greater(item):
    return 'い' if item == 'あ' else 'z'


def key(items):
    return ''.join(items)


def asked(prefixes, keys):
    """What is under prefixes, how far the keys of the map go with keys, and what begins these."""
    return [
        *('under %s' % prefix for prefix in prefixes),
        'reach %s' % ' '.join(keys),
        'longest %s' % ' '.join(keys),
        'along %s' % keys[-1],
        'along_values %s' % keys[-1],
        'along_owned %s' % keys[-1],
    ]


def linked(items):
    """Leaves of one length before, behind and below another, which is then joined with the last."""
    whole, last = key(items), key(items[:-1])
    before, behind = (key([make(items[0]), *items[1:]]) for make in (lesser, greater))
    below = whole + whole
    return [
        'insert %s 1' % whole,
        'insert %s 2 %s 3' % (behind, before),
        'insert %s 4' % below,
        'get %s' % ' '.join([whole, behind, before, below, last + '*1', whole + 'x', below + 'x']),
        'iter',
        *asked([whole, before, below, below + 'x'], [last + '*1', behind + 'x', below + 'x']),
        'remove %s' % whole,
        *asked([whole], [whole, below]),
        'get %s' % ' '.join([whole, below]),
        'keys',
        'remove %s' % before,
        'take',
    ]


def cut(items, at):
    """A label is cut by a branch and joined again, and then by a key that ends in it."""
    whole, front, rest = key(items), key(items[:at]), items[at:]
    branch = front + greater(rest[0])
    before = front + key([lesser(rest[0]), *rest])
    beside = front + key(rest[:-1]) + 'x'
    keys = [whole, front, branch, before, beside, whole + 'x']
    near = ' '.join(keys)
    return [
        'insert %s 1' % whole,
        *asked([front, branch, beside, whole + 'x'], [branch, front]),
        'insert %s 2' % branch,
        'contains %s' % near,
        'insert %s 3' % before,
        'iter',
        *asked([front, before], keys),
        'remove %s' % before,
        'remove %s' % branch,
        'get %s' % near,
        'iter',
        'insert %s 4' % front,
        'get %s' % near,
        *asked([front, beside], keys),
        'values',
        'remove %s' % front,
        'get %s' % near,
        'insert %s 5' % front,
        'remove %s' % whole,
        'keys',
        'take',
    ]


def split_and_removed(items, at):
    """A branch is removed, so that a label is joined again, and then what begins as the branch."""
    whole, front, rest = key(items), key(items[:at]), items[at:]
    branch = front + greater(rest[0])
    near = ' '.join([whole, front, branch])
    return [
        'insert %s 1 %s 2' % (whole, branch),
        'clone',
        'split %s' % branch,
        'get %s' % near,
        'split_off %s' % front,
        'get %s' % near,
        'insert %s 3' % branch,
        'split %s' % front,
        'len',
    ]


def calls(kind, length):
    items = label(kind, length)
    answers = linked(items)
    for at in range(1, len(items)):
        front = len(key(items[:at]).encode())
        if length <= 33 or front in NEAR or length - front in NEAR:
            answers += cut(items, at) + split_and_removed(items, at)
    return answers


def long_texts():
    """Texts of one character, of each number of characters that has about one or two labels."""
    for item in 'aßあ🌏':
        size = len(item.encode())
        for length in range(252, 514):
            text = '%s*%d' % (item, length // size)
            yield 'insert %s %d' % (text, length // size * size)
            yield 'get %s %s+ん' % (text, text)
        yield 'len'


def lines():
    for kind in 'bytes', 'text':
        for length in LENGTHS:
            for call in calls(kind, length):
                yield '%s %s' % (kind, call)
            yield kind + ' len'
    yield 'text clear'
    for call in long_texts():
        yield 'text ' + call
