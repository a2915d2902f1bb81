"""Makes the inputs that are deep and wide, and what `ptree` and `test_scripts` must answer to them.

    python3 -B -m tests.oracle.make_deep FOLDER

bytes.in has 8,000 keys, each a prefix of the next, and text.in 30,000 keys of one character.
They are inserted from the last to the first, looked up, asked for what is under and along the last,
listed, written, read again, and removed, the byte keys from the longest, so that each removal goes
down to the last node, and the texts from the least. Then they are inserted again and copied, the tree
is split at the key in the middle, which drops the copy, what was taken is copied and written, and the
two maps are dropped at the end. The byte keys end with one so long that its tree is too deep to be
written, and so to be read again, unless with wide levels.
Each NAME.out is the answer by model.py.
"""
import os
import sys
from tests.oracle.make_cases import write
from tests.oracle.model import answer
from tests.oracle.words import word, written

NESTED = [b'a' * n for n in range(1, 8001)]
CHARACTERS = [chr(0x4E00 + n).encode() for n in range(30000)]
TOO_LONG = b'a' * (255 * 65535 + 1)


def two_maps(keys):
    """A copy of the whole, a split in the middle, and a copy of what was taken, with look-ups."""
    middle = keys[len(keys) // 2]
    asked = [b'len', *(b'get\t' + key for key in (keys[0], middle, keys[-1]))]
    split = [b'split\t' + middle, *asked, b'swap', *asked]
    return [b'copy', *split, b'copy', b'remove\t' + middle, *asked, b'swap', *asked]


def script(keys, removals):
    inserts = [b'insert\t%s\t%d' % (key, n) for n, key in reversed(list(enumerate(keys)))]
    past = keys[-1] + keys[0]
    look_ups = [b'get\t' + key for key in (keys[0], keys[-1], past)]
    queries = [b'longest\t' + past, b'reach\t' + past, b'under\t' + keys[-1], b'along\t' + past]
    removes = [b'remove\t' + key for key in removals]
    asked = [*look_ups, *queries, b'len', b'list', b'wire', b'reload', b'wide', b'reloadwide']
    again = [*inserts, b'len', *two_maps(keys), b'wire']
    lines = [*inserts, *asked, *removes, b'len', b'list', *again]
    return b''.join(line + b'\n' for line in lines)


def chain(flags, last):
    """Tree bytes of a root and a record of one byte for each level that there is, all but the last with the same flags."""
    levels = [bytes([flags if level < 65535 else last, 1, *divmod(level, 256), 97]) for level in range(1, 65536)]
    return bytes([12, 0, 0, 0]) + b''.join(levels)


def lines():
    """Lines for `test_scripts` about chains, and their answers: lone children are joined to one key, and keys of each
    length are as deep as can be written, and one deeper."""
    below, filled = word(chain(15, 15)), word(chain(15, 3))
    too_deep = 'tree deeper than level 65535'
    yield 'bytes read %s 9' % word(chain(12, 3)), written(b'a' * 65535) + '=9'
    yield 'bytes size', '66567 258 257'
    yield 'bytes get a*65535 a*65534', '9 none'
    yield 'bytes clear', ''
    yield 'bytes open %s 65535' % below, 'record cut short at 327679'
    yield 'bytes open %s+%%03%%01%%00%%00a 65536' % below, 'wrong level at 327679'
    yield 'bytes open %s 65535' % filled, '65535'
    yield 'bytes get a*1 a*65535 a*65536', '1 65535 none'
    yield 'bytes size', '327679 65536 65535'
    yield 'bytes reload', '65535'
    yield 'bytes longest a*70000', written(b'a' * 65535) + '=65535'
    yield 'bytes count a*40000 b', '25536 0'
    yield 'bytes insert a*65536 65536', 'none'
    yield 'bytes tree', too_deep
    yield 'bytes reload', too_deep
    yield 'bytes size_wide', '458758 65537 65536'
    yield 'bytes reload_wide', '65536'
    yield 'bytes twin', '65536'
    yield 'bytes part a*1000', '64537 999'
    yield 'bytes get a*1000 a*65536 a*999', '1000 65536 none'
    yield 'bytes len', '64537'
    yield 'bytes clear', ''
    yield 'bytes_set open %s 65535' % filled, '65535'
    yield 'bytes_set size', '327679 65536 65535'
    yield 'bytes_set reload_wide', '65535'
    yield 'bytes_set part a*65535', '1 65534'


def main(folder):
    for kind, keys, removals, end in (
        ('bytes', NESTED, NESTED[::-1], b'clear\ninsert\t%s\t1\nwire\nreload\nreloadwide\nlen\n' % TOO_LONG),
        ('text', CHARACTERS, CHARACTERS, b''),
    ):
        path = os.path.join(folder, kind)
        data = script(keys, removals) + end
        write(path + '.in', data)
        write(path + '.out', answer(kind, data))


if __name__ == '__main__':
    main(*sys.argv[1:])
