"""Encodings by chance, as lines for `test_scripts`: what is written of maps and sets, and what is read, also from
encodings that are not tight or damaged."""
import random
from itertools import groupby
from tests.oracle.model import NARROW, WIDE, common, first_item, tree_bytes
from tests.oracle.words import word

A = ord('a')


# ---- What is written --------------------------------------------------------


def some_key(rng, kind, keys):
    """A key that often begins as one that is there, as a word."""
    items = ['a', 'b', 'é', 'あ', 'い', '🌏', '🍔'] if kind == 'text' else ['a', 'b', '%00', '%80', '%FF']
    parts = [rng.choice(keys)] if keys and rng.random() < 0.6 else []
    for _ in range(rng.randrange(3)):
        often = rng.choice([1] * 30 + [2, 3, 4, 30, 63, 85, 86, 255])
        parts.append(rng.choice(items) + ('*%d' % often if often > 1 else ''))
    return '+'.join(parts) or '*'


def some_changes(rng, calls):
    """The calls that make a map or a set, and one about its tree bytes."""
    kind, keys = rng.choice(['bytes', 'text']), []
    yield kind, 'clear', '', ''
    for _ in range(rng.randrange(1, 12)):
        key = some_key(rng, kind, keys)
        call = rng.choices(['insert', 'remove', 'split', 'split_off'], [16, 4, 1, 1])[0]
        if call != 'insert' and keys:
            key = rng.choice(keys)
        keys += [key] if key != '*' else []
        yield kind, call, key, ' %d' % rng.randrange(1000) if call == 'insert' else ''
    yield kind, rng.choice(calls), '', ''


def written_lines(rng, calls):
    """These calls of a map and of a set."""
    made = list(some_changes(rng, calls))
    for shape in '', '_set':
        for kind, call, key, value in made:
            yield ('%s%s %s %s' % (kind, shape, call, key)).rstrip() + ('' if shape else value)


# ---- What is read -----------------------------------------------------------


def siblings(keys, at, kind):
    """The keys, which are longer than `at` and alike up to it, by their item there."""
    return [list(group) for _, group in groupby(keys, lambda key: first_item(key[at:at + 4], kind))]


def some_keys(rng, kind):
    """A few keys that often begin alike, some of them long."""
    items = [x.encode() for x in 'abéあいの🌏🗻'] if kind == 'text' else [b'a', b'b', b'\0', b'\x80', b'\xff']
    fronts = [b'']
    for _ in range(3):
        often = rng.choice([1, 1, 2, 2, 3, 3, 64] if rng.random() < 0.2 else [1, 2, 3])
        fronts.append(rng.choice(fronts) + rng.choice(items) * often)
    keys = {rng.choice(fronts) + b''.join(rng.choices(items, k=rng.randrange(3)))
            for _ in range(rng.randrange(8))}
    return sorted(keys)


def some_pieces(rng, label, kind):
    """A label cut somewhere between its items."""
    cut = [b'']
    while label:
        item = first_item(label, kind)
        if cut[-1] and (rng.random() < 0.15 or len(cut[-1] + item) > 255):
            cut.append(b'')
        cut[-1] += item
        label = label[len(item):]
    return cut


def some_flags(rng, value, child, sibling):
    """The three marks, and any of the bits that say nothing."""
    return 2 * value + 8 * child + 32 * sibling + rng.choice([0, 1, 4, 16, 64, 128, 21, 213])


def some_row(rng, kind, keys, at, level, width):
    """Records of the keys, which are longer than `at` and alike up to it."""
    out, groups = [], siblings(keys, at, kind)
    for n, group in enumerate(groups):
        end = at + common(group[0][at:], group[-1][at:], kind)
        has_value = len(group[0]) == end
        pieces = some_pieces(rng, group[0][at:end], kind)
        for i, piece in enumerate(pieces):
            is_last = i + 1 == len(pieces)
            value, child = is_last and has_value, not is_last or len(group) > has_value
            out += [some_flags(rng, value, child, i == 0 and n + 1 < len(groups)), len(piece)]
            out += [*(level + i).to_bytes(width, 'big'), *piece]
        out += some_row(rng, kind, group[has_value:], end, level + len(pieces), width)
    return out


def some_writing(rng, keys, kind, width):
    has_empty = keys[:1] == [b'']
    others = keys[has_empty:]
    head = [some_flags(rng, has_empty, bool(others), False), 0, *bytes(width)]
    return [*head, *some_row(rng, kind, others, 0, 1, width)]


def starts(tree, width):
    """The offsets of the whole records at the front."""
    at, found = 0, []
    while at + 2 + width <= len(tree):
        found.append(at)
        at += 2 + width + tree[at + 1]
    return found


def damage(rng, tree, width):
    """One change that leaves most of the records as they are."""
    at, how, last = rng.randrange(len(tree) or 1), rng.randrange(9), 1 + width
    record = rng.choice(starts(tree, width) or [0])
    if how == 0:
        return tree[:at] + [rng.randrange(256)] + tree[at + 1:]
    if how == 1:
        return tree[:at] + rng.choices([0, 1, 2, 3, 8, 12, 32, 51, 60, A], k=rng.choice([1, 1, 4, 5])) + tree[at:]
    if how == 2:
        return tree[:at] + tree[at + rng.choice([1, 4, 5]):]
    if how == 3:
        return tree[:at]
    if how == 4:
        return tree[:record] + tree[record:record + 9] + tree[record:]
    if how == 5 and tree[record + last:]:
        level = max(0, min(255, tree[record + last] + rng.choice([-1, 1])))
        return tree[:record + last] + [level] + tree[record + last + 1:]
    if how == 6 and tree[record + 1:]:
        length = max(0, min(255, tree[record + 1] + rng.choice([-1, 1])))
        return tree[:record + 1] + [length] + tree[record + 2:]
    return tree[:record] + [(tree[record:] or [0])[0] ^ rng.choice([2, 8, 32])] + tree[record + 1:]


def read_lines(rng, width):
    """An encoding of some keys by chance, the encoding itself, and the same with damages."""
    kind, call = rng.choice(['bytes', 'text']), 'read' if width == NARROW else 'read_wide'
    keys = some_keys(rng, kind)
    values = [rng.randrange(1000) for _ in keys]
    other, tight = some_writing(rng, keys, kind, width), list(tree_bytes(dict.fromkeys(keys), kind, width))
    rows = [(kind, other, values)]
    for tree in other, tight:
        for _ in range(4):
            once = damage(rng, tree, width) if rng.random() < 0.3 else tree
            changed_values = values[rng.random() < 0.1:] + [7] * (rng.random() < 0.2)
            rows.append((kind, damage(rng, once, width), changed_values))
    rows.append(('text' if kind == 'bytes' else 'bytes', tight, values))
    for kind, tree, values in rows:
        tree = word(bytes(tree))
        yield ' '.join([kind, call, tree, *map(str, values)])
        yield '%s_set %s %s %d' % (kind, call, tree, len(values))
    yield '%s tree' % kind


def lines():
    rng, wide_rng = random.Random(255), random.Random(65536)
    for _ in range(200):
        yield from written_lines(rng, ['tree', 'tree', 'tree', 'json'])
        yield from read_lines(rng, NARROW)
    for _ in range(100):
        yield from written_lines(wide_rng, ['tree_wide'])
        yield from read_lines(wide_rng, WIDE)
