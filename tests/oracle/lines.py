"""Lines that tests make when they run, and what a program must answer to lines: one language, which `test_scripts`, the
Rust package and the library for C read. A program that lacks some calls says which it has."""
import random
from itertools import product
from tests.oracle import make_damage, make_deep, make_encodings, make_labels, make_large, make_near, make_order
from tests.oracle.answer_lines import KINDS, answers, calls
from tests.support import read

# Calls that take no words.
WITHOUT_KEY = {'ends', 'len', 'iter', 'twin', 'reload', 'reload_wide', 'pop_first', 'pop_last'}
EVEN, ODD = range(0, 10000, 2), range(1, 10000, 2)


def inserted(numbers):
    return 'insert ' + ' '.join('%d %d' % (n, n) for n in numbers)


def decimals():
    """Decimal texts: the even ones, then the odd ones. The even ones are removed, each asked for twice, and inserted
    again. All go through tree bytes and JSON and back."""
    again = 'remove ' + ' '.join('%d %d' % (n, n) for n in EVEN)
    for kind in 'bytes', 'text':
        for call in (inserted(EVEN), inserted(ODD), 'len', again, 'len', inserted(EVEN), 'len', 'json', 'reload',
                     'reload_wide', 'iter', 'keys', 'values', 'take', 'len'):
            yield '%s %s' % (kind, call)


def chance():
    """Calls by chance, many thousands, on few keys: all of up to four parts, each one byte or nineteen."""
    rng, parts = random.Random(121), ('a', '%FF', 'nineteen%20bytes%20each')
    keys = [''.join(key) or '*' for n in range(5) for key in product(parts, repeat=n)]
    calls = {'insert': 35, 'remove': 25, 'get': 18, 'contains': 2, 'longest': 4, 'reach': 2, 'count': 2, 'beside': 2,
             'range': 2, 'cursor_range': 2, 'cursor_prefix': 1, 'under': 1, 'cut': .4, 'part': .2, 'ends': 1,
             'len': 1, 'iter': .4, 'twin': .4, 'reload': .4, 'reload_wide': .4, 'pop_first': .4, 'pop_last': .4}
    for call in rng.choices(list(calls), calls.values(), k=20000):
        words = rng.choices(keys, k=2 if call.endswith('range') else 0 if call in WITHOUT_KEY else 1)
        value = ' %d' % rng.randrange(2 ** 64) if call == 'insert' else ''
        yield ' '.join(['bytes', call, *words]) + value
        yield ' '.join(['bytes_set', call if call != 'get' else 'contains', *words])


def committed():
    """The lines that `rt ci` runs `test_scripts` on."""
    return read('crates', 'test_scripts', 'stdin').decode().split('\n')[:-1]


MADE = {'committed': committed, 'decimals': decimals, 'labels': make_labels.lines, 'near': make_near.lines,
        'order': make_order.lines, 'chance': chance, 'encodings': make_encodings.lines,
        'damage': make_damage.lines}
# Lines about 200,000 keys, whose answers take the model a minute.
LARGE = 'large'


def made(name, offered=None):
    """The lines of a name: those of calls that are offered, which are most of them."""
    made_now = make_large.lines if name == LARGE else MADE[name]
    lines = [line for line in made_now() if line.split(' ')[0] in KINDS]
    if offered is None:
        return lines
    kept = [line for line in lines if ' '.join(line.split(' ')[:2]) in offered]
    kinds = {call.split(' ')[0] for call in offered}
    assert 2 * len(kept) > len([line for line in lines if line.split(' ')[0] in kinds]), 'few of the calls are offered'
    return kept


def answered(lines):
    """The lines with their answers, kind by kind, as a program writes them."""
    told = []
    for kind in KINDS:
        m = {}
        told += ['%s: %s\n' % (line, ' '.join(answers(m, kind, call, words))) for line, call, words in calls(lines, kind)]
    return ''.join(told).encode()


def data(lines):
    """Lines as a program reads them."""
    return ''.join(line + '\n' for line in lines).encode()


def deep():
    """Lines about trees as deep as can be, with their answers, which no dictionary holds, as data."""
    pairs = list(make_deep.lines())
    return data(line for line, _ in pairs), ''.join('%s: %s\n' % pair for pair in pairs).encode()
