"""Inputs over some 200,000 keys, and what `ptree` must answer to them.

    python3 -B -m tests.oracle.make_large FOLDER

No contract can tell an allocation failure that did not happen. A body that gives up past a number of
entries would meet its contract, so these inputs make each command and each call that may allocate on
more entries than such a number is likely to be. They run with all the memory there is, so that no
answer is an allocation failure.

ptree.in is for `ptree bytes`, and ptree.out the answer by model.py. Lines are for `test_scripts`.
"""
import os
import sys
from tests.oracle.make_cases import write
from tests.oracle.model import answer, tree_bytes
from tests.oracle.words import written

COUNT = 200000
UNDER = 150000


def keys_in_order(first, second):
    """COUNT keys, of which UNDER begin with the first letter, in an order that is not theirs."""
    numbers = [n * 7919 % COUNT for n in range(COUNT)]
    return [b'%s%d' % (first if n < UNDER else second, n) for n in numbers]


def commands(keys, prefix):
    """Lines for `ptree`: each command on a map of all keys, or on one of most of them."""
    inserts = [b'insert\t%s\t%d' % (key, n) for n, key in enumerate([b'', *keys])]
    some = keys[::20000]
    asked = [b'%s\t%s' % (word, key) for word in (b'get', b'longest', b'along') for key in some]
    lists = [b'len', b'list', b'under\t' + prefix, b'reach\t' + prefix + b'x', b'wire', b'wide']
    removals = [b'remove\t' + key for key in keys[::2]]
    halves = [b'split\t' + prefix, b'list', b'swap', b'list', b'copy', b'clear', b'swap']
    again = [*inserts[:COUNT // 2:2], b'list', b'copy', b'split\t' + prefix[:1] + b'1', b'len']
    lines = [*inserts, *lists, b'reload', b'reloadwide', *asked, b'copy', b'len', *removals, b'list', b'swap', *halves,
             b'len', b'list', *again, b'swap', b'wire', b'reload', b'list']
    return b''.join(line + b'\n' for line in lines)


def changes(prefix, tree, values):
    """The calls that are made on a map or a set of all keys, in words of a line."""
    read = ' '.join([written(tree), *values])
    return ['clone', 'debug', 'tree', 'under ' + prefix, 'split ' + prefix, 'read ' + read, 'clone',
            'split_off ' + prefix, 'len', 'read ' + read, 'take', 'len']


def map_calls(keys, prefix):
    """The calls of a map, in words of a line."""
    words = [text.decode() for text in keys]
    pairs = ['%s %d' % (word, n) for n, word in enumerate(words)]
    half = COUNT // 2
    tree, values = tree_bytes(dict.fromkeys(keys), 'bytes'), [str(n) for n, _ in enumerate(keys)]
    return ['extend ' + ' '.join(pairs[:half]), 'insert ' + ' '.join(pairs[half:]), 'iter', 'keys', 'values',
            'get ' + ' '.join(words[::100]), *changes(prefix, tree, values), 'from_iter ' + ' '.join(pairs),
            'remove ' + ' '.join(words[::2]), 'extend ' + ' '.join(pairs[1::3]), 'len']


def set_calls(keys, prefix):
    """The calls of a set, in words of a line."""
    words = [text.decode() for text in keys]
    half = COUNT // 2
    return ['extend ' + ' '.join(words[:half]), 'insert ' + ' '.join(words[half:]), 'iter',
            'contains ' + ' '.join(words[::100]), *changes(prefix, tree_bytes(dict.fromkeys(keys), 'text'), [str(COUNT)]),
            'from_iter ' + ' '.join(words), 'remove ' + ' '.join(words[::2]), 'extend ' + ' '.join(words[1::3]),
            'len']


def lines():
    """The lines of maps and of sets."""
    yield from ('bytes ' + call for call in map_calls(keys_in_order(b'a', b'b'), 'a'))
    yield from ('text_set ' + call for call in set_calls(keys_in_order('あ'.encode(), 'い'.encode()), 'あ'))


def main(folder):
    keys = keys_in_order(b'a', b'b')
    data = commands(keys, b'a')
    write(os.path.join(folder, 'ptree.in'), data)
    write(os.path.join(folder, 'ptree.out'), answer('bytes', data))


if __name__ == '__main__':
    main(*sys.argv[1:])
