"""Calls of maps and sets of which one may be refused, as scripts of lines for `test_scripts`."""
from tests.oracle.model import NARROW, WIDE, tree_bytes
from tests.oracle.words import argument, written


def texts(keys):
    """Keys as the words of a line."""
    return [written(key.encode()) or '*' for key in keys]


def elements(keys):
    """The same in a line."""
    return ' '.join(texts(keys))


def numbered(keys):
    """Keys as words, each with its value behind it."""
    return ['%s %d' % (word, n) for n, word in enumerate(texts(keys), 1)]


def pairs(keys):
    """The same in a line."""
    return ' '.join(numbered(keys))


def each(call, words):
    """A line for each word."""
    return ['%s %s' % (call, word) for word in words]


def one_by_one(call, words):
    """A line for each word, and a list behind it."""
    return [line for word in words for line in ('%s %s' % (call, word), 'iter')]


# A key that is copied, of more than 30 bytes.
LONG = 'bcd' * 20

# The first has a label of 76 bytes, which the second cuts to two of more than 30. The third cuts
# the rest once more. The others meet labels of more than 30 bytes before and within them.
CUT = [
    'foo-' * 10 + 'bar-' * 9,
    'foo-' * 9,
    'foo-' * 10 + 'baz-' * 9 + 'baz',
    'foo-' * 9 + 'a-' * 17 + 'a',
    'foo-' * 7,
    'bar-' * 9 + 'bar',
    'bar-' * 10 + 'foo-' * 8 + 'foo',
    '',
]

# So many that the vector of nodes grows more than once.
MANY = (
    'g c fa fox z ga gb gc za zab zabc zabd e d h i j k l m n o p q r s t u v w x y '
    'ha hb ia ib ja jb ka kb'
).split()

# Of texts four removals join labels to one of more than 30 bytes: the third and the ninth that of
# a leaf that is left alone, the fourth that of an only child, the sixth that of a node with
# children.
JOINED = [
    'あいうえおかきくけこさ',
    'いろいろいろ',
    'いろいろいろはははははは',
    'x' * 20,
    '',
    'あいうえおかきくけこさいいいいいいいいいいい',
    'いろいろいろいいいいいい',
    'あいうえおかきくけこさううううううううううう',
    'あいうえおかきくけこさうううううううううううあ',
    'x' * 20 + 'y' * 20,
    'y',
    'あいうえおかきくけこさうううううううううううい',
]

# Keys of labels of at most 30 bytes and of more, and some that begin the next.
WALKED = [
    '', 'bar', 'bar-' * 9 + 'bar', 'bar-' * 10 + 'a', 'bar-' * 10 + 'a-b', 'bar-' * 10 + 'a-b-c',
    'baz', 'bazaar', 'foo-' * 9 + 'bar-' * 9 + 'bar', 'foo-' * 9 + 'baz-' * 9 + 'baz',
    'foo-' * 9 + 'foo', 'x', 'xy', 'zebra',
]

# The empty one, one at a node without value and one at a node with one, two that end inside a
# label of at most 30 bytes and inside a longer one, two below a long label, and two with nothing
# under them.
PREFIXES = [
    '', 'ba', 'bar', 'baza', 'foo-foo-f', 'foo-' * 9 + 'baz-baz', 'foo-' * 9 + 'ba', 'foo-foo-bar',
    'zebras',
]

# Two part behind 20 bytes, and the last goes on behind 48.
SPLIT = ['', 'a', 'ab', 'x' * 20 + 'y' * 20, 'x' * 20 + 'z' * 20, 'い' * 16, 'い' * 16 + 'ろ']

# The empty one, one of an entry, one with nothing under it, one that leaves one of two children, so
# that labels are joined to one of 40 bytes, one inside a label of 48 bytes, and one below it.
PARTING = ['', 'ab', 'b', 'x' * 20 + 'y', 'い' * 12, 'い' * 16 + 'ろ']

# Two labels have more than 30 bytes.
COPIED = ['', 'foo', 'foo-' * 9 + 'foo', 'foo-' * 10 + 'bar-' * 8 + 'bar', 'foobar', 'x']

# Long labels are cut and joined, and the first four begin with あ.
ELEMENTS = [
    'あ' * 12 + 'い', 'あ' * 12, 'あ', 'あ' * 12 + 'いろはにほへとちりぬるを', '',
    'x' * 20 + 'y' * 20, 'x' * 20 + 'z' * 20, 'x' * 20 + 'y' * 20 + 'zz',
]

# Some are escaped in a Debug text.
WRITTEN = ['a"\\', 'あ\n', '', 'foo', 'bar']

# So many that the vector of nodes grows more than once. Two labels have more than 30 bytes.
PUT = [
    'foobar', 'foobaz', '', 'あいうえおかきくけこさしすせそ', 'x', 'あいうえおかきくけこさ', 'y',
    'いろはにほへとちりぬるを', 'い', 'z',
]

# So deep that the siblings that wait ask for memory more than once.
DEEP = 'abcdef abcd あ abcde a * の ab abc'.split()

# The records of a, and of the first 30 d, have no value and one child, so labels are joined, and
# one to more than 30 bytes. It has seven keys.
TREE = written(
    b'\x0f\0\0\0<\x01\0\x01a\x0f\x01\0\x02b?\x01\0\x03c\x0c\x1e\0\x04' + b'd' * 30
    + b'\x03\x06\0\x05dddddd\x03\x01\0\x03d\x0f\x03\0\x01\xe3\x81\x82\x03\x03\0\x02\xe3\x81\xae'
)

# Keys that are asked for: before, at, between and behind those of WALKED, and what begins some.
ASKED = ['', 'ba', 'bar', 'bar-' * 10, 'foo-' * 9, 'foo-' * 9 + 'foo', 'x', 'zebra', 'zoo']

# Questions about the order of keys.
ORDERED = [
    'ends', 'range *', *each('range', texts(ASKED)), 'range bar ' + elements(['foo-' * 9 + 'foo']),
    'range x bar', 'fold ' + elements(ASKED), *each('beside', texts(ASKED)),
    'count ' + elements(ASKED),
]

# Five names, what begins the last two and what begins the first two, and three more names. The
# second name parts from the first one inside a label, so its removal joins labels: to one of at
# most 30 bytes, to one of 40, and to one of 45.
NAMED = [
    'rust ruby bash erlang elixir e ru x y z'.split(),
    [
        'ru' + '-' * 18 + 'st' + '.' * 18, 'ru' + '-' * 18 + 'by' + '.' * 18, 'bash' + '-' * 36,
        'e' + '-' * 19 + 'rlang' + '.' * 30, 'e' + '-' * 19 + 'lixir' + '.' * 30, 'e' + '-' * 9,
        'ru---', 'x' * 40, 'y' * 40, 'z' * 40,
    ],
    [
        'る' * 7 + 'すと' * 4, 'る' * 7 + 'びい' * 4, 'ばっしゅ' * 4, 'えええ' + 'あ' * 12,
        'えええ' + 'り' * 12, 'え', 'るる', 'x' * 40, 'y' * 40, 'z' * 40,
    ],
]

# Keys in order, of which the second begins the third, with which it is joined if it goes.
FRONT = 'a prefix that is longer than what a node keeps'
LINED_UP = ['', FRONT, FRONT + ', and that of another', 'bar', 'baz']

# The same without the empty one, and one more.
LINED_UP_ELEMENTS = [*LINED_UP[1:], 'foo']

# Keys in order, and two that are not behind those before them.
AT_FIRST_IN_ORDER = [*LINED_UP, 'baa', FRONT + ' at first']

# A new key.
NEW = elements(['another prefix that is longer than what a node keeps'])

# Questions about these.
ASKED_IN_LINE = [
    'ends', 'beside bar', *each('range', ('a baz', 'b', 'bas')),
    *each('cursor_range', ('a baz', 'b', 'bas', '*')), 'count a', 'itself',
    *each('fold', ('*', 'f', 'ba', elements([FRONT]), 'x')), 'iter',
]

# The first and the last ones are taken.
POPS = [
    ['pop_first', 'iter', 'pop_first', 'iter', 'pop_last', 'iter'],
    ['pop_last', 'iter', 'pop_last', 'iter', 'pop_last', 'iter', 'pop_first', 'iter'],
]

# Two sets that share two elements, and few elements of the second one.
ONE, TWO, FEW = ['', 'bar', 'baz', 'foo'], ['baz', 'foo', 'foobar', 'quux', 'x'], ['baz', 'x']

# Keys that begin each other, so many that they are not counted without memory.
NESTED = ['a*%d' % length for length in range(1, 101)]


def tree_of(keys, width=NARROW):
    """The tree bytes of some keys, as a word."""
    return written(tree_bytes([key.encode() for key in keys], 'text', width))


# One has a label of more than 30 bytes.
WIDE_KEYS = ['', 'あ', 'あ' + 'x' * 40, 'y']


def walks(front):
    """The walks over a map or a set, and those under a prefix."""
    return ['iter', 'under ' + front, 'cursor', 'cursor_prefix ' + front]


def changed_map(names):
    """Changes of a map of five names, and walks over a copy of what is left."""
    rust, ruby, _, _, _, e, ru = texts(names[:7])
    return [
        'from_iter ' + pairs(names[:5]), 'insert * 6', 'insert %s 7' % rust, 'iter',
        *one_by_one('remove', [ruby]), *one_by_one('insert', [ruby + ' 2']),
        *one_by_one('split', [e]), 'clone', 'iter', 'raise 10', *walks(ru), 'keys', 'values', 'tree',
        'read %s 16 13 12 17' % tree_of(['', *names[:3]]),
        *one_by_one('extend', [pairs(names[7:])]), 'take', 'iter',
    ]


def changed_set(names):
    """The same of a set."""
    rust, ruby, _, _, _, e, ru = texts(names[:7])
    return [
        'from_iter ' + elements(names[:5]), 'insert *', 'insert ' + rust, 'iter',
        *one_by_one('remove', [ruby]), *one_by_one('insert', [ruby]), *one_by_one('split', [e]),
        'clone', *walks(ru), 'tree', 'read %s 4' % tree_of(['', *names[:3]]),
        *one_by_one('extend', [elements(names[7:])]), 'take', 'iter',
    ]


def of_two(one, two):
    """Each call of a set with another one."""
    calls = 'union', 'intersection', 'difference', 'subset', 'disjoint', 'same'
    other = elements(two)
    return ['from_iter ' + elements(one), *['%s %s' % (call, other) for call in calls], 'iter']


MAP_SCRIPTS = [
    [*one_by_one('insert', numbered(CUT)), 'take', 'len'],
    ['extend ' + pairs(CUT), *each('insert', numbered(MANY)), 'len', 'iter'],
    ['from_iter ' + pairs(JOINED), 'remove い z', 'insert x 7',
     *one_by_one('remove', texts(JOINED)), 'remove x', 'len'],
    ['from_iter ' + pairs(WALKED), 'iter', 'keys', 'values', *each('under', texts(PREFIXES)),
     *each('cursor_prefix', texts(PREFIXES)), 'cursor', 'along_owned bazaars', 'copy あい ' + LONG,
     'take', 'iter'],
    [line for word in texts(PARTING) for line in ('from_iter ' + pairs(SPLIT), 'split ' + word)],
    ['from_iter ' + pairs(SPLIT), 'split_off ' + 'x' * 20, 'iter', 'insert * 1', 'split_off *',
     'clone', 'clear', 'clone'],
    ['from_iter ' + pairs(COPIED), 'clone', 'clone', 'remove foo', 'clone', 'iter', 'reload', 'reload_wide', 'twin',
     'part foo', 'size', 'iter'],
    ['extend ' + pairs(PUT), 'iter', 'extend x 20 foobar 21',
     'extend x 30 xa 31 xb 32 y 33 xaz 34 い 35', 'iter', 'from_iter ' + pairs(PUT[3:]), 'iter'],
    ['extend ' + pairs(WRITTEN), 'debug', 'debug'],
    ['tree', *['insert %s 1' % word for word in DEEP], 'tree', 'tree', 'iter'],
    ['insert x 1', 'read %s 1 2 3 4 5 6 7' % TREE, 'read %s 8 9 10 11 12 13 14' % TREE,
     'read %s 1 2 3 4 5 6' % TREE, 'iter'],
    ['from_iter ' + pairs(WIDE_KEYS), 'tree_wide', 'insert い 9', 'tree_wide',
     'read_wide %s 1 2 3 4' % tree_of(WIDE_KEYS, WIDE), 'iter',
     'read_wide %s 1 2 3' % tree_of(WIDE_KEYS, WIDE), 'iter'],
    ['from_iter ' + pairs(WALKED), *ORDERED, 'same ' + pairs(WALKED), 'same ' + pairs(WALKED[1:]),
     'pop_first', 'pop_last', 'pop_first', 'cut bar', 'cut ' + elements(['foo-' * 9 + 'ba']),
     'cut zzz', 'iter', 'cut *', 'ends', 'range *', 'pop_first'],
    ['from_iter ' + pairs(COPIED), 'merge ' + pairs(PUT), 'merge ' + pairs(COPIED), 'retain 5',
     'load %E3%82%93 9', 'load *', 'fill %E3%82%93 1', 'fill %E3%82%8F 2', 'update %E3%82%8F 3',
     'update w 4', 'fill * 5', 'iter'],
    ['from_iter ' + pairs(JOINED), 'retain 7', 'retain 11', 'same ' + pairs(JOINED)],
    *map(changed_map, NAMED),
    ['from_iter ' + pairs(LINED_UP), *ASKED_IN_LINE, 'same ' + pairs(LINED_UP)],
    ['from_iter ' + pairs(AT_FIRST_IN_ORDER)],
    *[['from_iter ' + pairs(LINED_UP), *calls] for calls in POPS],
    ['from_iter ' + pairs(LINED_UP), *one_by_one('fill', [NEW + ' 7', NEW + ' 9']),
     *one_by_one('get_or_insert', ['x 8', '* 3', NEW + '%20 4'])],
    ['from_iter ' + pairs(LINED_UP), *one_by_one('cut', texts([FRONT]))],
    ['from_iter ' + pairs(LINED_UP[:2]), *one_by_one('merge', [pairs(LINED_UP[1:]), pairs(PUT)])],
    [*one_by_one('load', [pairs(LINED_UP), 'baz 7', 'bay 7', 'c 6', 'c%20 7 d 8 d 9 e 10']), 'len'],
    ['from_iter ' + ' '.join('%s %d' % (word, n) for n, word in enumerate(NESTED)), 'count a',
     'len', 'count aa * aaaa'],
]

SET_SCRIPTS = [
    [*one_by_one('insert', texts(ELEMENTS)), 'insert あ', 'remove い',
     *one_by_one('remove', texts(ELEMENTS)), 'len'],
    ['extend ' + elements(ELEMENTS), 'iter', 'clone', 'split あ', 'split x', 'split *', 'clone',
     'from_iter ' + elements(ELEMENTS), 'extend y あ ya yb yc yd ye', 'split_off ' + 'x' * 20,
     'iter'],
    ['extend ' + elements(WALKED), 'iter', *each('under', texts(PREFIXES)),
     *each('cursor_prefix', texts(PREFIXES)), 'cursor', 'take', 'iter'],
    ['extend ' + elements(WRITTEN), 'debug', 'debug'],
    ['extend ' + ' '.join(DEEP), 'tree', 'tree', 'iter'],
    ['insert x', 'read %s 7' % TREE, 'read %s 7' % TREE, 'read %s 6' % TREE, 'iter'],
    ['from_iter ' + elements(WIDE_KEYS), 'tree_wide', 'insert い', 'tree_wide',
     'read_wide %s 4' % tree_of(WIDE_KEYS, WIDE), 'iter',
     'read_wide %s 3' % tree_of(WIDE_KEYS, WIDE), 'iter'],
    ['from_iter ' + elements(WALKED), *ORDERED, 'pop_first', 'pop_last', 'cut bar', 'iter',
     'load %E3%82%93', 'cut *', 'ends', 'range *', 'pop_last'],
    [*of_two(ELEMENTS, [*WALKED[8:], *ELEMENTS[:3]]), *of_two(ELEMENTS, ELEMENTS[2:]),
     *of_two(ELEMENTS, ELEMENTS[:3]), *of_two(ELEMENTS, ELEMENTS), 'retain 37', 'iter'],
    *map(changed_set, NAMED),
    [*of_two(ONE, TWO), *of_two(TWO, ONE), *of_two(TWO, FEW), 'itself'],
    ['from_iter ' + elements(LINED_UP_ELEMENTS), *ASKED_IN_LINE],
    ['from_iter ' + elements(AT_FIRST_IN_ORDER)],
    *[['from_iter ' + elements(LINED_UP_ELEMENTS), *calls] for calls in POPS],
    ['from_iter ' + elements(LINED_UP_ELEMENTS), *one_by_one('cut', ['a'])],
    ['from_iter ' + elements([*LINED_UP_ELEMENTS, 'ab']), *one_by_one('retain', ['3', '50'])],
    [*one_by_one('load', ['bar foobar', 'foobar', 'foo', elements(['g', 'g' * 40, 'ga', 'h'])]),
     'fold * f'],
    [*one_by_one('load', [elements([*LINED_UP, 'baa', 'c'])]), 'fold *'],
    ['from_iter ' + ' '.join(NESTED), 'count a', 'len', 'count aa * aaaa'],
]

# Routes, one longer than what a node keeps, and keys that are routed.
ROUTES = ['/', '/api/', '/api/users', '/long' * 8]
ROUTED = elements(['/api/users/7', '/api/u', '/x', 'api', '/long' * 9])
ROUTER_SCRIPTS = [[
    *each('add', numbered(ROUTES)), 'route ' + ROUTED, 'route_all ' + ROUTED, 'route_all',
    *each('drop_prefix', texts(['/zzz', '/lo', '/api/'])), 'route ' + ROUTED, 'len', 'drop_prefix *', 'route ' + ROUTED,
]]

# The keys of some scripts are written with a unit for each byte, and other words are numbers.
PAIRED = 'insert', 'extend', 'from_iter', 'merge', 'load', 'same', 'fill', 'update', 'get_or_insert'
NUMBERED = 'raise', 'retain'
# What these ask of bytes or of texts is not so of units.
NOT_OF_UNITS = 'read', 'read_wide', 'debug', 'copy', 'fold'


def unit(key):
    """A word of a key of bytes as one of units."""
    return written(b''.join(b'\0' + bytes([c]) for c in argument(key))) or '*'


def in_units(script):
    """A script of maps over units."""
    lines = []
    for call, *words in [line.split(' ') for line in script]:
        if call not in NOT_OF_UNITS:
            step = 2 if call in PAIRED else 1
            lines.append(' '.join([call, *(unit(word) if n % step == 0 and call not in NUMBERED else word
                                           for n, word in enumerate(words))]))
    return lines


# The kinds of keys, and the scripts for each.
SCRIPTS = {
    'maps': (('bytes', 'text'), MAP_SCRIPTS),
    'sets': (('bytes_set', 'text_set'), SET_SCRIPTS),
    'units': (('units',), [in_units(script) for script in (MAP_SCRIPTS[2], MAP_SCRIPTS[12], changed_map(NAMED[0]))]),
    'routers': (('bytes_router', 'text_router', 'units_router'), ROUTER_SCRIPTS),
}
