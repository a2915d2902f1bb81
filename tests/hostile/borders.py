"""Runs `ptree` at its borders: streams that are closed, full or not files, input and output that end early, a line
of 100 MB, and little memory.

Each run must end by itself with the status and the error line of docs/PTREE.md. What a run wrote before its output
failed must be a prefix of the right output, which is that of tests/oracle/model.py. tests/test_hostile.py runs each
part on both builds.
"""
import os
import resource
import subprocess
import tempfile
from tests.oracle.model import answer
from tests.oracle.refuse_commands import is_allowed
from tests.support import MOST_SECONDS

PARTS = 'inputs', 'large_input', 'full_disk', 'no_reader', 'cut_output', 'long_lines', 'little_memory'
MIB = 2 ** 20

READ_FAILED = (1, b'ptree: read failed\n')
NO_MEMORY = (1, b'ptree: out of memory\n')
WRITE_FAILED = (1, b'ptree: write failed\n')
ANSWERED = (0, b'')

FEW = b'insert\ta\t1\nget\ta\nlist'
MANY = b''.join(b'insert\tkey %d\t%d\n' % (n * 7919 % 10000, n) for n in range(10000)) + b'list\n'


class Runs:
    """The runs of a program, and how many there were."""

    def __init__(self, program):
        self.words = [program, 'bytes']
        self.count = 0

    def run(self, before=lambda: None, space=None, size=None, **streams):
        """The status and the error line of a run, and what it wrote where its output is a pipe. The limits are of
        its address space and of the files that it writes."""
        def start():
            resource.setrlimit(resource.RLIMIT_CPU, (MOST_SECONDS, MOST_SECONDS))
            resource.setrlimit(resource.RLIMIT_CORE, (0, 0))
            before()
            # what is set last keeps Python itself from more memory
            for limit, most in ((resource.RLIMIT_FSIZE, size), (resource.RLIMIT_AS, space)):
                if most is not None:
                    resource.setrlimit(limit, (most, most))
        self.count += 1
        streams = {'stdout': subprocess.PIPE, 'stderr': subprocess.PIPE, **streams}
        ran = subprocess.run(self.words, preexec_fn=start, **streams)
        return (ran.returncode, ran.stderr), ran.stdout


def closed(descriptor):
    """What closes a stream before the program runs."""
    return lambda: os.close(descriptor)


def check(got, wanted, told):
    assert got == wanted, '%s: %r, not %r' % (told, got, wanted)


def file_of(*pieces):
    """An open file that has these bytes."""
    file = tempfile.TemporaryFile()
    for piece in pieces:
        file.write(piece)
    file.seek(0)
    return file


def check_inputs(runs):
    """A last line without its end is answered, and an input that cannot be read is told."""
    check(runs.run(input=FEW), (ANSWERED, answer('bytes', FEW)), 'no end of the last line')
    check(runs.run(input=b''), (ANSWERED, b''), 'no input')
    folder = os.open('/', os.O_RDONLY)
    check(runs.run(stdin=folder), (READ_FAILED, b''), 'a folder as input')
    os.close(folder)
    check(runs.run(before=closed(0)), (READ_FAILED, b''), 'closed input')
    reader, writer = os.pipe()
    os.set_blocking(reader, False)
    os.write(writer, FEW)
    check(runs.run(stdin=reader), (READ_FAILED, b''), 'an input that would block')
    os.close(reader)
    os.close(writer)


def check_large_input(runs):
    """Of an input and an answer of near half a million bytes each, and of more than 65,535 commands, nothing is cut."""
    inserts = b''.join(b'insert\t%d\t7\n' % n for n in range(10000, 30100))
    data = inserts + b'get\t\n' * 45500 + b'insert\t%s\t8\nlist\n' % (b'k' * 2000)
    check(runs.run(input=data), (ANSWERED, answer('bytes', data)), 'a large input')


def check_full_disk(runs):
    """A full disk is told, unless there is nothing to write."""
    with open('/dev/full', 'wb', buffering=0) as full:
        for data in (FEW, MANY):
            check(runs.run(input=data, stdout=full)[0], WRITE_FAILED, 'a full disk')
        check(runs.run(input=b'', stdout=full)[0], ANSWERED, 'a full disk and no answer')
        check(runs.run(input=FEW, stdout=full, stderr=full)[0], (1, None), 'full disks')
        check(runs.run(input=FEW, stdout=full, before=closed(2))[0], (1, b''), 'a full disk, closed errors')
    check(runs.run(input=FEW, before=closed(1)), (WRITE_FAILED, b''), 'closed output')


def check_no_reader(runs):
    """A reader that is gone is told, and no run ends by SIGPIPE, whether that is ignored at the start or not."""
    for data in (FEW, MANY):
        for is_default in (True, False):
            reader, writer = os.pipe()
            os.close(reader)
            # Python ignores SIGPIPE, and a program that it starts does so too unless signals are restored
            got = runs.run(input=data, stdout=writer, restore_signals=is_default)[0]
            os.close(writer)
            check(got, WRITE_FAILED, 'no reader')


def check_cut_output(runs):
    """A file that may grow no more, and a pipe that nobody empties, have a prefix of the right output."""
    right = answer('bytes', MANY)
    for size in (0, 1, 4095, 4096, 100001, len(right) - 1):
        with tempfile.TemporaryFile() as file:
            got = runs.run(input=MANY, stdout=file, size=size, restore_signals=False)[0]
            file.seek(0)
            check((got, file.read()), (WRITE_FAILED, right[:size]), 'a file of at most %d bytes' % size)
    reader, writer = os.pipe()
    os.set_blocking(writer, False)
    check(runs.run(input=MANY, stdout=writer)[0], WRITE_FAILED, 'a full pipe')
    os.close(writer)
    with open(reader, 'rb') as pipe:
        written = pipe.read()
    assert written and right.startswith(written), 'a full pipe has no prefix of the right output'


def long_lines(key_len):
    """An insert of a long key, and look-ups of it."""
    key = b'k' * key_len
    return [b'insert\t', key, b'\t7\nget\t', key, b'\nlen\n']


def check_long_lines(runs):
    """A line of 100 MB is answered, or where memory is too small that is told."""
    with file_of(*long_lines(100 * 10 ** 6)) as file:
        check(runs.run(stdin=file), (ANSWERED, b'none\nsome 7\ncount 1\n'), 'a line of 100 MB')
        file.seek(0)
        check(runs.run(stdin=file, space=64 * MIB), (READ_FAILED, b''), 'a line of 100 MB in 64 MiB')
    zeros = b'0' * 10 ** 7
    check(runs.run(input=b'insert\ta\t' + zeros + b'7\nget\ta'), (ANSWERED, b'none\nsome 7\n'), 'many zeros')
    check(runs.run(input=b'insert\ta\t7' + zeros), (ANSWERED, b'fault 3\n'), 'a number of many digits')
    check(runs.run(input=b'\t' * 10 ** 7), (ANSWERED, b'fault 1\n'), 'many fields')
    check(runs.run(input=b'get' + b'\t' * 10 ** 7), (ANSWERED, b'fault 2\n'), 'many fields of a get')


def check_little_memory(runs):
    """In each memory a run is answered, with at most one reply of no memory, or tells what failed. Each end is met."""
    data = b''.join(long_lines(8 * 10 ** 6)) + b'list\n'
    met = set()
    for space in range(12 * MIB, 120 * MIB, 3 * MIB):
        got, output = runs.run(input=data, space=space)
        if got == ANSWERED:
            assert is_allowed('bytes', data, output), 'an answer in %d bytes' % space
            met.add(output.count(b'no memory'))
        else:
            assert got in (READ_FAILED, NO_MEMORY) and output == b'', '%r in %d bytes' % (got, space)
            met.add(got)
    check(met, {READ_FAILED, NO_MEMORY, 0, 1}, 'ends in little memory')
