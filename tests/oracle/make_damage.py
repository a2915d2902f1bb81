"""Damaged encodings, as lines for `test_scripts`: each byte of three encodings is each other byte in turn, and each
proper prefix of them is read, with levels of both widths."""
from tests.oracle.model import NARROW, WIDE, tree_bytes
from tests.oracle.words import word

# a kind of keys, and keys: of the last a label of 255 bytes would end inside of a character
DAMAGED = (('bytes', [b'bar', b'baz', b'foo']), ('bytes', [b'', b'a']),
           ('text', [b'a' * 254 + 'あの'.encode(), b'b']))


def lines():
    for kind, keys in DAMAGED:
        for width, call in (NARROW, 'read'), (WIDE, 'read_wide'):
            tree, values = tree_bytes(dict.fromkeys(keys), kind, width), ' '.join(str(n + 1) for n in range(len(keys)))
            changed = [tree[:at] + bytes([byte]) + tree[at + 1:] for at, old in enumerate(tree) for byte in range(256)
                       if byte != old]
            for read in changed + [tree[:end] for end in range(len(tree))]:
                yield '%s %s %s %s' % (kind, call, word(read), values)
