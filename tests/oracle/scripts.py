"""Random command scripts, all from a seeded random.Random."""

ITEMS = {
    'bytes': [b'a', b'b', b'\0', b'\xff'],
    'text': [x.encode() for x in 'abéèあのい🌏🗻🍔'],
    'units': [b'\0a', b'\0b', b'a\0', b'\xd8\x3c', b'\xdf\x0f', b'\xff\xff'],
}
BINARY = [bytes([x]) for x in range(256) if x not in (9, 10)]


def char(rng):
    """A random character of 1 to 4 bytes, no tab or newline."""
    top = rng.choice([0x80, 0x800, 0x10000, 0x110000])
    while True:
        c = chr(rng.randrange(top))
        if c not in '\t\n' and not 0xD800 <= ord(c) < 0xE000:
            return c.encode()


def wide_item(rng, kind):
    """Any item of a kind that a line can have."""
    if kind == 'units':
        return rng.randrange(65536).to_bytes(2, 'big')
    return rng.choice(BINARY) if kind == 'bytes' else char(rng)


def spell(rng, kind, key):
    """How a line has a key, which is a list of items: units in digits of either case."""
    key = b''.join(key)
    if kind != 'units':
        return key
    return b''.join(rng.choice([b'%02x', b'%02X']) % byte for byte in key)


def key_maker(rng, kind, shape):
    """A function that makes a fresh key as a list of items."""
    few = rng.sample(ITEMS[kind], 3)
    stems = [rng.choices(few, k=rng.randrange(1, 12)) for _ in range(4)]

    def make():
        if shape == 'short':
            return rng.choices(few, k=rng.randrange(7))
        if shape == 'shared':
            return rng.choice(stems) + rng.choice([[], rng.choice(stems)]) + rng.choices(few, k=2)
        if shape == 'wide':
            return [wide_item(rng, kind) for _ in range(rng.randrange(5))]
        if shape == 'nested':
            return few[:1] * rng.randrange(40)
        if shape == 'long':
            length = rng.choice([253, 254, 255, 256, 300, 509, 510, 511, 700])
            count = rng.choice([length // len(few[0]), length // len(few[0]), 3])
            return few[:1] * count + rng.choices(few, k=rng.randrange(4))
        high = b'\0' if kind == 'units' else b''
        return [high + bytes([d]) for d in b'%d' % rng.randrange(3000)]
    return make


SHAPES = 'short', 'shared', 'wide', 'nested', 'long', 'numbers'
WEIGHTS = {b'insert': 40, b'remove': 16, b'get': 8, b'len': 2, b'list': 2, b'clear': .2,
           b'under': 5, b'along': 5, b'longest': 6, b'reach': 6}
# each word with its weight among the others, where the two maps change too
ALL_WEIGHTS = {**WEIGHTS, b'insert': 80, b'list': 4, b'split': 40, b'swap': 25, b'copy': 10}
# and where the tree is written often, too
WIRE_WEIGHTS = {**ALL_WEIGHTS, b'insert': 160, b'split': 10, b'swap': 15, b'wire': 40}
# and where it is written and read again, too, between questions and changes
RELOAD_WEIGHTS = {**WIRE_WEIGHTS, b'wire': 10, b'remove': 40, b'reload': 40}
# and with levels in four bytes
WIDE_WEIGHTS = {**RELOAD_WEIGHTS, b'reload': 10, b'wide': 20, b'reloadwide': 30}
FIELDS = {b'insert': 2, b'remove': 1, b'get': 1, b'len': 0, b'list': 0, b'clear': 0,
          b'under': 1, b'along': 1, b'longest': 1, b'reach': 1, b'split': 1, b'swap': 0, b'copy': 0,
          b'wire': 0, b'reload': 0, b'wide': 0, b'reloadwide': 0}
NUMBERS = [b'0', b'1', b'007', b'18446744073709551615', b'00018446744073709551615']
FAULTY = [b'', b'put\ta', b'get', b'len\t', b'insert\ta', b'insert\ta\t', b'insert\ta\tx',
          b'insert\ta\t-1', b'insert\ta\t18446744073709551616', b'get\ta\tb', b'Get\ta',
          b'insert\ta\t+1', b'insert\ta\t1 ', b' len', b'len\r', b'insert\ta\t1\t', b'\t',
          b'under', b'along\ta\tb', b'longest', b'reach\ta\t', b'Reach\ta', b'unde\ta']
# lines whose key spells no units, or does so beside a fault of a lower number
FAULTY_UNITS = [b'get\t00', b'get\t0061006', b'get\t006g', b'under\t0061 ', b'longest\t00610062006', b'insert\t006\tx',
                b'insert\t006\t1', b'insert\tzz61\t1', b'len\tzz', b'split\t+061', b'reach\t006:']


def near_key(rng, known, make, inserts):
    """A fresh key, or one that is near a known one."""
    near, how = rng.choice(known), rng.randrange(6)
    if how == 0 or inserts and how < 4:
        return make()
    if how == 1:
        return near[:rng.randrange(len(near) + 1)]
    if how == 2:
        return near + make()[:3]
    if how == 3 and near:
        at = rng.randrange(len(near))
        return near[:at] + make()[:1] + near[at + 1:]
    return near


def command(rng, kind, word, known, make, n):
    """A command line of a word, with `n` as its number, if it has one."""
    key = near_key(rng, known, make, word == b'insert')
    if word == b'split':
        key = key[:rng.randrange(1, 4)]
    if word == b'insert' or rng.random() < .05:
        known.append(key)
    number = rng.choice(NUMBERS) if rng.random() < .05 else b'%d' % n
    return b'\t'.join([word, spell(rng, kind, key), number][:1 + FIELDS[word]])


def script_of_all(rng, kind, shape, size, weights=ALL_WEIGHTS):
    """`size` command lines, among them at least one of each word, and lists of both maps."""
    make, known = key_maker(rng, kind, shape), [[]]
    more = rng.choices(list(weights), weights.values(), k=size - len(weights))
    words = rng.sample([*weights, *more], k=size)
    out = [command(rng, kind, word, known, make, n) for n, word in enumerate(words)]
    return b''.join(line + b'\n' for line in [*out, b'list', b'swap', b'list'])


def script(rng, kind, shape, size, faults=.03):
    """`size` command lines, then `len` and `list`; keys of queries are mostly near stored ones."""
    make, known, out = key_maker(rng, kind, shape), [[]], []
    weights = [x * rng.choice([.3, 1, 1, 3]) for x in WEIGHTS.values()]
    faulty = FAULTY + FAULTY_UNITS if kind == 'units' else FAULTY
    for n in range(size):
        if rng.random() < faults:
            out.append(rng.choice(faulty))
            continue
        word = rng.choices(list(WEIGHTS), weights)[0]
        out.append(command(rng, kind, word, known, make, n))
    return b''.join(line + b'\n' for line in [*out, b'len', b'list'])
