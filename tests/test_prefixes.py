"""The program `prefixes`: the commands of its pages, what a terminal is told, and files and streams that fail."""
import array
import contextlib
import fcntl
import functools
import os
import pty
import select
import shutil
import signal
import subprocess
import termios
import time
from tests.prefixes.pages import FILES, PAGES, commands
from tests.support import ROOT, Case, each, folder, pairs, run

MOST_SECONDS = 120


class Pages(Case):
    """Each command of docs/PREFIXES.md and of tests/prefixes/borders.md writes what stands there."""

    @each(*pairs(PAGES))
    def page(self, page, build):
        room = folder(self.addCleanup)
        work = os.path.join(room, 'work')
        for files in FILES:
            shutil.copytree(files, work, dirs_exist_ok=True)
        os.symlink(self.program('prefixes', build), os.path.join(room, 'prefixes'))
        env = {**os.environ, 'PATH': room + ':' + os.environ['PATH']}
        found = [*commands(page)]
        self.assertGreater(len(found), 10)
        for command, wanted in found:
            with self.subTest(command):
                ran = subprocess.run(['bash', '-c', command], cwd=work, env=env, stdout=subprocess.PIPE,
                                     stderr=subprocess.STDOUT, timeout=MOST_SECONDS, check=False)
                self.assertEqual(ran.stdout.decode('utf-8', 'replace'), wanted)


class Progress(Case):
    """A terminal has a line for each 100,000 lines or packed names of a list, and a file none."""

    READS = {
        'complete': [], 'near': [], 'stats': [], 'pack': [os.devnull],
        'combine union': [os.devnull, '-o', os.devnull],
    }

    @classmethod
    def setUpClass(cls):
        cls.path = os.path.join(folder(cls.addClassCleanup), 'long')
        with open(cls.path, 'w', encoding='utf-8') as file:
            file.writelines('%d\n' % n for n in range(350_000))

    def told(self, path, command, build):
        """What a terminal gets while a command reads a list."""
        terminal, errors = pty.openpty()
        words = [self.program('prefixes', build), *command.split(), path, *self.READS[command]]
        subprocess.run(words, stdin=subprocess.DEVNULL, stdout=subprocess.DEVNULL, stderr=errors,
                       timeout=MOST_SECONDS, check=False)
        os.close(errors)
        said = b''
        try:
            while part := os.read(terminal, 4096):
                said += part
        except OSError:  # nothing more is there
            pass
        os.close(terminal)
        return said.replace(b'\r\n', b'\n')

    @each(*pairs(READS))
    def terminal(self, command, build):
        said = self.told(self.path, command, build)
        self.assertEqual(said, b''.join(b'prefixes: %d00000 lines read\n' % n for n in (1, 2, 3)))

    @each('clang', 'rattle')
    def packed(self, build):
        path = self.path + '.packed'
        self.assert_ends(run([self.program('prefixes', build), 'pack', self.path, path]))
        said = self.told(path, 'complete', build)
        self.assertEqual(said, b''.join(b'prefixes: %d00000 names read\n' % n for n in (1, 2, 3)))

    @each('clang', 'rattle')
    def no_terminal(self, build):
        # no line was asked, so none was answered
        self.assert_ends(run([self.program('prefixes', build), 'complete', self.path]), status=1)


class Saved(Case):
    """A list that a command replaces is the old one or the new one, however the command ends."""

    WRITES = {
        'pack': ['pack', 'list', 'list'],
        'combine': ['combine', 'union', 'list', 'other', '-o', 'list', '--as-lines'],
    }

    def setUp(self):
        self.room = folder(self.addCleanup)
        self.write('list', range(20_000))
        self.write('other', range(20_000, 40_000))

    def write(self, name, numbers):
        with open(os.path.join(self.room, name), 'w', encoding='utf-8') as file:
            file.writelines('%d\n' % n for n in numbers)

    def read(self):
        with open(os.path.join(self.room, 'list'), 'rb') as file:
            return file.read()

    def made(self, command, build):
        """The old list and the new one, and the words that make it of the old one."""
        words, old = [self.program('prefixes', build), *self.WRITES[command]], self.read()
        self.assert_ends(run(words, cwd=self.room))
        new = self.read()
        self.assertNotEqual(old, new)
        self.write('list', range(20_000))
        return old, new, words

    @each(*pairs(WRITES))
    def limit(self, command, build):
        """The system refuses a file of more than 1,024 bytes, by a signal or by an error."""
        old, _, words = self.made(command, build)
        for trap in '', 'trap "" XFSZ; ':
            ran = run(['bash', '-c', trap + 'ulimit -f 1; exec "$@"', 'bash', *words], cwd=self.room)
            self.assertNotEqual(ran.returncode, 0)
            self.assertEqual(self.read(), old)
            self.assertEqual(b'list: File too large' in ran.stderr, bool(trap))
            if trap:
                self.assertEqual(len([name for name in os.listdir(self.room) if name.endswith('.tmp')]), 1)

    @each(*pairs(WRITES))
    def disk(self, command, build):
        """A disk is full."""
        old, _, words = self.made(command, build)
        script = ('mkdir disk && mount -t tmpfs -o size=%dk none disk && cp list other disk && cd disk && '
                  '! "$@" && cmp list ../list && ls -A' % (2 * len(old) // 1024 + 40))
        ran = run(['unshare', '-rm', 'bash', '-c', script, 'bash', *words], cwd=self.room)
        if b'unshare' in ran.stderr or b'mount' in ran.stderr:
            self.skipTest('no disk can be mounted here')
        self.assertEqual((ran.returncode, ran.stdout), (0, b'list\nother\n'), ran)
        self.assertIn(b'list: No space left on device', ran.stderr)

    @each(*pairs(WRITES))
    def signals(self, command, build):
        """A signal comes at any time."""
        old, new, words = self.made(command, build)
        for delay in range(12):
            with subprocess.Popen(words, cwd=self.room) as process:
                time.sleep(delay / 400)
                process.send_signal((signal.SIGINT, signal.SIGTERM)[delay % 2])
            self.assertIn(self.read(), (old, new))


class Deep(Case):
    """A name that lies too deep for tree bytes is told with its line, and one of a byte less is right."""

    COMMANDS = {'pack': ['-'], 'stats': [], 'draw': []}
    MOST = 65_535 * 255
    SAID = b'prefixes: list: line 2: the name lies too deep: it has more than 16711425 bytes\n'

    @each(*pairs(COMMANDS))
    def name(self, command, build):
        room = folder(self.addCleanup)
        words = [self.program('prefixes', build), command, 'list', *self.COMMANDS[command]]
        for more in 0, 1:
            with open(os.path.join(room, 'list'), 'wb') as file:
                file.write(b'ab\n' + b'x' * (self.MOST + more) + b'\nz\n')
            ran = run(words, cwd=room)
            self.assertEqual((ran.returncode, ran.stderr), (2, self.SAID) if more else (0, b''))
        # what does not begin with a prefix is no part of a drawing
        drawn = run([self.program('prefixes', build), 'draw', 'list', 'a'], cwd=room)
        self.assert_ends(drawn, b'""\n  "ab"\t"ab"\n')


class Long(Case):
    """A line that is much longer than all names is near none, and takes little memory besides its own. A search for a
    long name takes memory in proportion to its length."""

    MOST_KILOBYTES = 400_000

    def near(self, build, path, line):
        words = [self.program('prefixes', build), 'near', path, '-k', '2']
        limited = ['bash', '-c', 'ulimit -v %d; exec "$@"' % self.MOST_KILOBYTES, 'bash', *words]
        return run(limited, line + b'\n')

    @each('clang', 'rattle')
    def line(self, build):
        line = b'foo' * 7_000_000
        path = os.path.join(ROOT, 'tests', 'prefixes', 'lists', 'names')
        self.assert_ends(self.near(build, path, line), line + b'\t0\n', status=1)

    @each('clang', 'rattle')
    def name(self, build):
        name = b'ab' * 100_000
        line = b'x' + name[1:-1]
        path = os.path.join(folder(self.addCleanup), 'list')
        with open(path, 'wb') as file:
            file.write(name + b'\nfoo\n')
        self.assert_ends(self.near(build, path, line), line + b'\t1\n\t' + name + b'\t2\n')


def is_read(pipe):
    """Whether all that was written to a pipe has been read."""
    left = array.array('i', [0])
    fcntl.ioctl(pipe, termios.FIONREAD, left)
    return left[0] == 0


def feed(process, pipe, data):
    """Writes data to a pipe, each byte once a program has read the one before, and closes it. A program that has ended
    reads no more."""
    with contextlib.suppress(BrokenPipeError):
        for at in range(len(data)):
            os.write(pipe, data[at:at + 1])
            while not is_read(pipe) and process.poll() is None:
                time.sleep(0.0001)
    os.close(pipe)


def run_in_pieces(words, contents, data):
    """Runs a program on a file with these contents and an input, of each of which a read gets one byte."""
    out, into = os.pipe()
    pipes = {'stdin': subprocess.PIPE, 'stdout': subprocess.PIPE, 'stderr': subprocess.PIPE}
    with subprocess.Popen([*words, '/dev/fd/%d' % out], pass_fds=[out], **pipes) as process:
        feed(process, into, contents)
        os.close(out)
        feed(process, os.dup(process.stdin.fileno()), data)
        output, errors = process.communicate()
    return subprocess.CompletedProcess(words, process.returncode, output, errors)


class Waiting(Case):
    """What is answered is written before the next line is whole, and an interrupt ends the program at once."""

    ASKED = {
        'complete': (['names', '-n', '1'], b'foo\nba', b'foo\t3\n\tfoo\n', b'ba\t2\n\tbar\n'),
        'route': (['routes'], b'/x\n/api/u\napi\n/', b'/\troot\n/api/\tapi\n-\n', b'/\troot\n'),
        'block': (['blocked'], b'net\nx', b'passes\n', b'passes\n'),
    }

    @each(*pairs(ASKED))
    def part_of_a_line(self, command, build):
        words, data, first, last = self.ASKED[command]
        words = [self.program('prefixes', build), command, *words]
        lists = os.path.join(ROOT, 'tests', 'prefixes', 'lists')
        with subprocess.Popen(words, stdin=subprocess.PIPE, stdout=subprocess.PIPE, cwd=lists) as process:
            os.write(process.stdin.fileno(), data)
            is_answered, _, _ = select.select([process.stdout], [], [], MOST_SECONDS)
            self.assertTrue(is_answered)
            self.assertEqual(os.read(process.stdout.fileno(), 4096), first)
            rest, _ = process.communicate(b'\n', timeout=MOST_SECONDS)
        self.assertEqual(rest, last)
        self.assertEqual(process.returncode, int(command == 'block'))

    @each(*pairs(['complete names --lines', 'near', 'pack -', 'combine union names']))
    def interrupt(self, command, build):
        """The program waits for lines of a list or of an input that does not end."""
        words = [self.program('prefixes', build), *command.split(), '-']
        pipes = {'stdin': subprocess.PIPE, 'stdout': subprocess.PIPE}
        lists = os.path.join(ROOT, 'tests', 'prefixes', 'lists')
        # a shell that runs the tests in the background has them ignore interrupts
        heeds = functools.partial(signal.signal, signal.SIGINT, signal.SIG_DFL)
        with subprocess.Popen(words, **pipes, cwd=lists, preexec_fn=heeds) as process:
            os.write(process.stdin.fileno(), b'foo\n' * 1000)
            while not is_read(process.stdin.fileno()) and process.poll() is None:
                time.sleep(0.001)
            process.send_signal(signal.SIGINT)
            self.assertEqual(process.wait(MOST_SECONDS), -signal.SIGINT)


class Pieces(Case):
    """Lists, packed lists and lines of input are the same where each read gets one byte."""

    ASKED = {
        'route': ('routes', b'/api/users/7\nx\n'), 'route --cidr': ('networks', b'10.1.2.3\n::1\n'),
        'complete': ('names', b'foo\nba\n'),
        'near': ('names', b'fooo\nbat\n'),
        'block': ('blocked', b'eu.ads.example.com\nnet\n'), 'tree': ('settings', b'log\nlo\n'),
        'segment': ('words', b'applepie\n'), 'stats': ('names', b''), 'draw': ('names', b''),
    }

    def contents(self, name, build):
        """A list as lines, and packed."""
        path = os.path.join(ROOT, 'tests', 'prefixes', 'lists', name)
        packed = os.path.join(folder(self.addCleanup), 'packed')
        self.assert_ends(run([self.program('prefixes', build), 'pack', path, packed]))
        for there in path, packed:
            with open(there, 'rb') as file:
                yield there, file.read()

    @each(*pairs(ASKED))
    def asked(self, command, build):
        name, lines = self.ASKED[command]
        words = [self.program('prefixes', build), *command.split()]
        for path, contents in self.contents(name, build):
            whole = run([*words, path], lines)
            self.assertEqual(whole.returncode, 0)
            self.assert_ends(run_in_pieces(words, contents, lines), whole.stdout)

    @each('clang', 'rattle')
    def combine(self, build):
        words = [self.program('prefixes', build), 'combine', 'union', '--as-lines', '-o', '/dev/stdout', os.devnull]
        for path, contents in self.contents('names', build):
            whole = run([*words, path])
            self.assertEqual(len(whole.stdout.split(b'\n')), 6)
            self.assert_ends(run_in_pieces(words, contents, b''), whole.stdout)

    @each('clang', 'rattle')
    def pack(self, build):
        (_, lines), (_, packed) = self.contents('settings', build)
        for contents in lines, packed:
            out = os.path.join(folder(self.addCleanup), 'out')
            words = ['sh', '-c', '"$0" pack "$2" "$1"', self.program('prefixes', build), out]
            self.assert_ends(run_in_pieces(words, contents, b''))
            with open(out, 'rb') as file:
                self.assertEqual(file.read(), packed)
