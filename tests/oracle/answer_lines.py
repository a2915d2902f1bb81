"""What lines must be answered, by the plain model of model.py.

A call NAME of a line is the method `do_NAME` of what the line's kind is: a map, a set or a router, over a dictionary.
"""
from tests.oracle.model import (MAX_VALUE, NARROW, WIDE, common, first_item, floor_boundary, is_valid, read_tree, rows,
                                tree_bytes, under)
from tests.oracle.words import argument, braces, compact, debug_character, edits, element, row, shown, truth, written

KINDS = [keys + shape for shape in ('', '_set', '_router') for keys in ('bytes', 'text', 'units')]

# What a load answers that comes to a key which is not behind the last one.
OUT_OF_ORDER = 'key out of order'

# Calls that pass over words that are no keys. Those that put pairs in do so, too.
OF_EACH = {'get', 'contains', 'remove', 'longest', 'reach', 'count', 'fold', 'beside', 'route', 'route_all', 'drop_prefix'}

def loaded(m, pairs):
    """The pairs up to the first whose key is not behind each key that is there by then."""
    last, found = max(m, default=None), []
    for key, value in pairs:
        if last is not None and key <= last:
            break
        found.append((key, value))
        last = key
    return found


# ---- Maps and sets ----------------------------------------------------------


class Whole:
    """A map or a set of a kind of keys, over a dictionary that calls change."""

    def __init__(self, kind, m):
        self.kind, self.m = kind, m

    def answer(self, call, words):
        """The answers to a call."""
        if call in OF_EACH:
            words = [word for word in words if is_valid(word, self.kind)]
        return getattr(self, 'do_' + call, self.unknown)(*words)

    def unknown(self, *words):
        return ['unknown']

    def become(self, entries):
        entries = dict(entries)
        self.m.clear()
        self.m.update(entries)

    def shown(self, entries):
        return list(map(self.entry, entries))

    def do_iter(self):
        return self.shown(rows(self.m))

    do_cursor = do_iter

    def one(self, entries):
        """The first of some entries, or that there is none."""
        return self.entry(entries[0]) if entries else 'none'

    def do_take(self):
        answers = self.do_iter()
        self.m.clear()
        return answers

    def do_clear(self):
        self.m.clear()
        return []

    def do_len(self):
        return [str(len(self.m))]

    def do_empty(self):
        return [truth(not self.m)]

    def do_itself(self):
        return ['true']

    def do_contains(self, *words):
        return [truth(word in self.m) for word in words]

    def do_range(self, start, *ends):
        return self.shown(e for e in rows(self.m) if start <= e[0] and all(e[0] < end for end in ends))

    do_cursor_range = do_range

    def do_ends(self):
        return [self.one(rows(self.m)), self.one(rows(self.m)[::-1])]

    def do_beside(self, *words):
        entries = rows(self.m)
        return [answer for key in words for answer in (self.one([e for e in entries[::-1] if e[0] < key]),
                                                       self.one([e for e in entries if e[0] > key]))]

    def do_count(self, *words):
        return [str(len(under(self.m, prefix))) for prefix in words]

    def folded(self, entries):
        """A number that tells in which order the values are met, or of a set the lengths of its elements."""
        number = 0
        for entry in entries:
            number = (number * 31 + self.weight(*entry)) % 2 ** 64
        return str(number)

    def do_fold(self, *words):
        return [self.folded(under(self.m, prefix)) for prefix in words]

    def do_under(self, *words):
        return self.shown(e for prefix in words for e in under(self.m, prefix))

    do_cursor_prefix = do_under

    def do_reach(self, *words):
        return [str(max((common(key, k, self.kind) for k in self.m), default=0)) for key in words]

    def along(self, key):
        return [e for e in rows(self.m) if key.startswith(e[0])]

    def do_longest(self, *words):
        return [self.one(self.along(key)[::-1]) for key in words]

    def parted(self, prefix):
        """The entries under a prefix, and the others."""
        taken = dict(under(self.m, prefix))
        return taken, {k: v for k, v in self.m.items() if k not in taken}

    def do_split(self, prefix):
        taken, left = self.parted(prefix)
        self.become(left)
        return [*self.shown(rows(taken)), 'and', *self.shown(rows(left))]

    def do_split_off(self, prefix):
        taken, left = self.parted(prefix)
        self.become(taken)
        return [*self.shown(rows(taken)), 'and', *self.shown(rows(left))]

    def do_clone(self):
        return [*self.do_iter(), 'and', *self.do_iter()]

    do_twin = do_len

    def do_part(self, prefix):
        taken, left = self.parted(prefix)
        self.become(taken)
        return [str(len(taken)), str(len(left))]

    def do_cut(self, prefix):
        taken, left = self.parted(prefix)
        self.become(left)
        return [str(len(taken))]

    def popped(self, entries):
        for key, _ in entries[:1]:
            del self.m[key]
        return [self.one(entries)]

    def do_pop_first(self):
        return self.popped(rows(self.m))

    def do_pop_last(self):
        return self.popped(rows(self.m)[::-1])

    def do_fronts(self, *words):
        for key in words:
            self.m.update((key[:n], n) for n in range(1, len(key) + 1) if is_valid(key[:n], self.kind))
        return []

    def do_extend(self, *words):
        pairs = self.pairs(words)
        self.m.update(pairs)
        return [str(len(pairs)), *self.do_iter()]

    def do_from_iter(self, *words):
        self.become(self.pairs(words))
        return self.do_iter()

    def do_load(self, *words):
        pairs = self.pairs(words)
        found = loaded(self.m, pairs)
        self.m.update(found)
        taken = [str(len(found))] if len(found) == len(pairs) else [str(len(found) + 1), OUT_OF_ORDER]
        return [*taken, *self.do_iter()]

    def do_retain(self, least):
        count, kept = len(self.m), [e for e in rows(self.m) if self.weight(*e) >= int(least)]
        self.become(kept)
        return [str(count), *self.do_iter()]

    def do_same(self, *words):
        return [truth(rows(self.m) == rows(dict(self.pairs(words))))]

    # -- encodings

    def tree(self, width):
        """The tree bytes, or None where they are too deep, and what is answered then."""
        tree = tree_bytes(self.m, self.kind, width)
        return tree, ['tree deeper than level %d' % (256 ** width - 1)]

    def do_tree(self, width=NARROW):
        tree, fault = self.tree(width)
        return fault if tree is None else [written(tree)]

    def do_tree_wide(self):
        return self.do_tree(WIDE)

    def do_size(self, width=NARROW):
        """The numbers of bytes and of records, and the deepest level."""
        tree, fault = self.tree(width)
        if tree is None:
            return fault
        at, count, deepest = 0, 0, 0
        while at < len(tree):
            deepest = max(deepest, int.from_bytes(tree[at + 2:at + 2 + width], 'big'))
            at, count = at + 2 + width + tree[at + 1], count + 1
        return [str(len(tree)), str(count), str(deepest)]

    def do_size_wide(self):
        return self.do_size(WIDE)

    def do_json(self):
        tree, fault = self.tree(NARROW)
        values = [self.json_value(value) for _, value in rows(self.m)]
        return fault if tree is None else [compact([list(tree), values]), written(tree), compact([[], values])]

    def do_reload(self, width=NARROW):
        tree, fault = self.tree(width)
        return fault if tree is None else self.do_len()

    def do_reload_wide(self):
        return self.do_reload(WIDE)

    def do_open(self, tree, count, width=NARROW):
        keys, fault = read_tree(tree, int(count), self.kind, width)
        if fault:
            return [fault]
        self.become((key, n) for n, key in enumerate(keys, 1))
        return self.do_len()

    def do_open_wide(self, tree, count):
        return self.do_open(tree, count, WIDE)

    def do_read(self, tree, *words, width=NARROW):
        values = self.read_values(words)
        keys, fault = read_tree(tree, len(values), self.kind, width)
        if fault:
            return [fault]
        self.become(zip(keys, values))
        return self.do_iter()

    def do_read_wide(self, *words):
        return self.do_read(*words, width=WIDE)

    def do_debug(self, is_wide=False):
        if self.kind == 'units':
            return ['unknown']
        items = []
        for key, value in rows(self.m):
            text = ('"%s"' % ''.join(map(debug_character, key.decode())) if self.kind == 'text'
                    else braces('[]', list(map(str, key)), is_wide))
            items.append(self.debug_entry(text, value))
        return [braces('{}', items, is_wide)]

    def do_wide(self):
        return self.do_debug(True)


class Map(Whole):
    """A map."""
    entry = staticmethod(row)

    def pairs(self, words):
        return [(key, int(value)) for key, value in zip(words[::2], words[1::2]) if is_valid(key, self.kind)]

    def weight(self, _, value):
        return value

    def json_value(self, value):
        return value

    def read_values(self, words):
        return list(map(int, words))

    def debug_entry(self, text, value):
        return '%s: %d' % (text, value)

    def do_insert(self, *words):
        answers = []
        for key, value in self.pairs(words):
            answers.append(shown(self.m.get(key)))
            self.m[key] = value
        return answers

    def do_remove(self, *words):
        return [shown(self.m.pop(k, None)) for k in words]

    def do_get(self, *words):
        return [shown(self.m.get(k)) for k in words]

    def do_keys(self):
        return [written(k) for k, _ in rows(self.m)]

    def do_values(self):
        return [str(v) for _, v in rows(self.m)]

    def do_raise(self, more):
        before = rows(self.m)
        self.m.update((key, min(value + int(more), MAX_VALUE)) for key, value in before)
        return self.shown(before)

    def do_fill(self, *words):
        answers = []
        for key, value in self.pairs(words):
            answers.append(truth(key not in self.m))
            self.m.setdefault(key, value)
        return answers

    def do_update(self, *words):
        answers = []
        for key, value in self.pairs(words):
            answers.append(shown(self.m.get(key)))
            if key in self.m:
                self.m[key] = value
        return answers

    def do_get_or_insert(self, *words):
        answers = []
        for key, value in self.pairs(words):
            answers.append(str(self.m.get(key, 0)))
            self.m[key] = value
        return answers

    def do_lend(self, *words):
        answers = []
        for key, value in self.pairs(words):
            fronts = self.along(key)
            answers.append(self.one(fronts[::-1]))
            self.m.update((front, value) for front, _ in fronts[-1:])
        return answers

    do_lend_with = do_lend

    def do_kept(self, key):
        keys = [element(e) for e in self.along(key)] or ['none']
        self.m.clear()
        return [keys[-1], keys[0]]

    def do_begin(self):
        if not self.m:
            return ['none'] * 5
        key, value = rows(self.m)[0]
        first = row((key, value))
        return [first, written(key), str(value), first, first]

    def do_merge(self, *words):
        pairs = dict(self.pairs(words))
        shared = sum(key in self.m for key in pairs)
        for key, value in pairs.items():
            self.m[key] = max(self.m.get(key, 0), value)
        return [str(shared), *self.do_iter()]

    def do_along(self, key):
        return self.shown(self.along(key))

    def do_along_values(self, key):
        return [str(value) for _, value in self.along(key)]

    do_along_owned = do_along_values

    def do_within(self, key, limit):
        items = (lambda k: k.decode() if self.kind == 'text' else
                 [k[n:n + 2] for n in range(0, len(k), 2)] if self.kind == 'units' else k)
        return self.shown(e for e in rows(self.m) if edits(items(e[0]), items(key)) <= int(limit))

    # -- the key traits

    def do_floor(self, *words):
        return [str(floor_boundary(b, self.kind)) for b in words]

    def do_copy(self, *words):
        return [written(b) if is_valid(b, self.kind) else 'none' for b in words]

    def do_common(self, key, b):
        n = common(key, b, self.kind)
        return [str(n), written(key[n:]), written(key[n:]), truth(n == len(key))]

    def do_first(self, *words):
        if not all(is_valid(word, self.kind) for word in words):
            return ['none']
        a, b = (first_item(word, self.kind) for word in words)
        return ['less' if a < b else 'greater' if b < a else 'equal']

    def do_halves(self, key, n):
        n = int(n)
        if n > len(key) or not is_valid(key[:n], self.kind):
            return ['none']
        return [written(key[:n]), written(key[n:])]


class Set(Whole):
    """A set, as a map whose values tell nothing."""
    entry = staticmethod(element)

    def pairs(self, words):
        return [(word, 0) for word in words if is_valid(word, self.kind)]

    def weight(self, key, _):
        return len(key)

    def json_value(self, _):
        return None

    def read_values(self, words):
        return [0] * int(words[0])

    def debug_entry(self, text, _):
        return text

    def do_insert(self, *words):
        answers = []
        for word, _ in self.pairs(words):
            answers.append(truth(word not in self.m))
            self.m[word] = 0
        return answers

    def do_remove(self, *words):
        return [truth(self.m.pop(word, None) is not None) for word in words]

    def do_union(self, *words):
        return list(map(written, sorted({*self.m, *words})))

    def do_intersection(self, *words):
        return list(map(written, sorted({*self.m} & {*words})))

    def do_difference(self, *words):
        return list(map(written, sorted({*self.m} - {*words})))

    def do_subset(self, *words):
        return [truth({*self.m} <= {*words})]

    def do_disjoint(self, *words):
        return [truth(not {*self.m} & {*words})]

    def unknown(self, *words):
        return ['unknown' for _ in words]


class Router(Map):
    """A router. Its routes are not listed: their number stands for them."""

    def do_iter(self):
        return self.do_len()

    do_add = Map.do_insert
    do_route = do_route_all = Map.do_longest

    def do_drop_prefix(self, *words):
        return [self.do_cut(prefix)[0] for prefix in words]


SHAPES = {'': Map, 'set': Set, 'router': Router}


def model(kind, m):
    """What a kind of lines is about, over a dictionary."""
    keys, _, shape = kind.partition('_')
    return SHAPES[shape](keys, m)


def answers(m, kind, call, words):
    """The answers to a call of a kind over a dictionary, which it changes."""
    return model(kind, m).answer(call, words)


def calls(lines, kind):
    """The calls among lines that are of one kind: the line, the call and its arguments."""
    for line in lines:
        its_kind, *rest = line.split(' ')
        if its_kind == kind and rest:
            yield line, rest[0], [argument(word) for word in rest[1:]]
