"""Runs `ptree` with the Nth memory request refused, for N = 1, 2, .. until none is refused.

For each kind of keys and each of SCRIPTS a run either writes nothing and ends with status 1 and a line
that says why, or it writes what the plain model allows: its own answer, in which at most one command, if
it may ask for memory, is answered `no memory` and changes nothing. With no request refused, the answer
is the model's own.
"""
from tests.oracle.model import Maps, along, answer, joins, line_answer, lines, read_key, rows, under
from tests.support import in_turn

LONG = b'bcd' * 20

# What changes the map, and its list; questions about prefixes, some of which find no entry; and what
# changes the two maps, by a prefix that ends a key, one in a label, one in a label of more than 30
# bytes, one that leaves one of two children, one under which there is nothing, and the empty one;
# what writes the tree; what reads again what it wrote, a label of 300 bytes among it; both with wide
# levels; and the empty key beside another one, split off whole.
SCRIPTS = [
    b'insert\t\t1\ninsert\tab\t2\ninsert\tac\t3\ninsert\tab\t4\nget\tac\nlist\n'
    b'remove\tab\nlen\nlist\nremove\t\nclear\nlist\n',
    b'under\t\ninsert\ta\t1\ninsert\tabc\t2\nunder\ta\nunder\tb\nalong\tb\n'
    b'along\tabcd\nlongest\tab\nlongest\tb\nreach\tabd\nreach\tb\nclear\nalong\ta\n',
    b'copy\nsplit\ta\ninsert\t\t1\ninsert\tab\t2\ninsert\tac\t3\ninsert\t%s\t4\nsplit\tac\n'
    b'list\nswap\nlist\nswap\nsplit\t%s\nlen\nswap\nlist\ncopy\nremove\t%s\nlist\nswap\n'
    b'get\t%s\nsplit\tb\nlen\nsplit\t%s\nlen\nswap\nsplit\t\nlen\nswap\nlist\n'
    % (LONG, LONG[:33], LONG, LONG, LONG[:3]),
    b'wire\ninsert\t\t1\nwire\ninsert\tab\t2\ninsert\tac\t30\ninsert\tacd\t4\nwire\nlist\n'
    b'remove\tab\nwire\nlist\n',
    b'reload\ninsert\t\t1\nreload\ninsert\tab\t2\ninsert\t%s\t30\ninsert\tac\t4\nreload\nlist\n'
    b'remove\tab\nreload\ninsert\tabc\t5\nlist\nclear\nreload\nlist\n' % (LONG * 5),
    b'wide\nreloadwide\ninsert\t\t1\ninsert\tab\t2\nwide\ninsert\t%s\t30\ninsert\tac\t4\n'
    b'reloadwide\nlist\nremove\tab\nreloadwide\nwide\nclear\nreloadwide\nlist\n' % (LONG * 5),
    b'insert\t\t1\ninsert\ta\t2\nsplit\t\nlen\nswap\nget\t\nlist\n',
]

ERRORS = [b'ptree: read failed\n', b'ptree: out of memory\n']


def may_be_refused(m, kind, line):
    """Whether a command may find no memory."""
    word, *fields = line.split(b'\t')
    key = read_key(fields[0], kind) if fields else None
    if word == b'insert':
        return key != b'' and key not in m
    if word == b'remove':
        return joins(m, key, kind)
    if word == b'list':
        return bool(rows(m))
    if word == b'under':
        return bool(under(m, key))
    if word == b'along':
        return bool(along(m, key))
    if word == b'split':
        return key != b'' and bool(under(m, key))
    if word == b'copy':
        return bool(m)
    return word in (b'wire', b'reload', b'wide', b'reloadwide')


def is_allowed(kind, data, output):
    """Whether the model allows the output, with at most one reply of no memory."""
    maps, rest, refusals = Maps(), lines(output), 0
    for line in lines(data):
        if rest[:1] == [b'no memory']:
            refusals += 1
            if refusals > 1 or not may_be_refused(maps.main, kind, line):
                return False
            rest = rest[1:]
            continue
        wanted = line_answer(maps, kind, line)
        if rest[:len(wanted)] != wanted:
            return False
        rest = rest[len(wanted):]
    return not rest and (not output or output.endswith(b'\n'))


def spelled(kind, data):
    """The lines of a script with their keys as a kind spells them: units of one byte each."""
    if kind != 'units':
        return data
    fields = [line.split(b'\t') for line in lines(data)]
    for line in fields:
        line[1:2] = [b''.join(b'%04x' % byte for byte in key) for key in line[1:2]]
    return b''.join(b'\t'.join(line) + b'\n' for line in fields)


def check(program, kind, script):
    """Runs a script until no request is refused, and asserts what each run writes."""
    data = spelled(kind, script)
    for at, ran in in_turn([program, kind], data):
        told = '%s, request %d: %r' % (kind, at, ran)
        if not ran.is_refused:
            assert (ran.returncode, ran.stdout, ran.stderr) == (0, answer(kind, data), b''), told
            assert at > 1, 'no request'
        elif ran.returncode == 0:
            assert is_allowed(kind, data, ran.stdout) and ran.stderr == b'', told
        else:
            assert ran.returncode == 1 and ran.stdout == b'' and ran.stderr in ERRORS, told
