"""Gives `ptree bytes` millions of random commands in one run, and asks that it holds on to no more memory at the end.

    python3 -B -m tests.hostile.soak PROGRAM [--commands N] [--lose N]

The commands are inserts, look-ups and removals of keys of a fixed set of 100,000, of which about half are there at any
time, and among them splits, copies, swaps, reloads, and clears of the second map. Each reply is held against
tests/oracle/model.py. After each tenth of the commands the first map has the same 50,000 keys again, the second has
none, and a key of MARK bytes is inserted and removed. The shim tests/hostile/live.c logs what is live when that key
asks for its label. The first such key is inserted before all else, so what is live then is the input. The answer is
a list whose room doubles, so its room is known from the lines that were answered before. What is live without the two
is what the maps hold on to: that after each later tenth may differ from that after the first by 5 in 100. When the
program has ended nothing may be live.

This shows that removed nodes are used again, as the first map keeps its nodes in one vector for the whole run, and
that no call leaks. It does not show what a call asks for while it runs. --lose N has the shim pretend that each Nth
free never was, which must fail.
"""
import argparse
import os
import random
import subprocess
import tempfile
from tests.oracle.model import Maps, line_answer
from tests.support import shim

KEY_COUNT = 100000
TENTHS = 10
BETWEEN_EVENTS = 2000
MARK = 50021
MOST_APART = 0.05
LETTERS = b'0123456789abcdef'
MARK_LINES = [b'split\tz', b'insert\t%s\t1' % (b'y' * MARK), b'remove\t' + b'y' * MARK]


class Commands:
    """Random commands, and a model of the maps that they work on."""

    def __init__(self, chance):
        self.chance = chance
        self.keys = sorted({self.key() for _ in range(KEY_COUNT * 11 // 10)})
        chance.shuffle(self.keys)
        self.keys = self.keys[:KEY_COUNT]
        self.kept = set(self.keys[:KEY_COUNT // 2])
        self.maps = Maps()

    def key(self):
        """Four to ten letters, and behind every tenth of them a tail that fits into no node."""
        chance = self.chance
        tail = chance.randrange(31, 100) if chance.randrange(10) == 0 else 0
        return bytes(chance.choices(LETTERS, k=chance.randrange(4, 11) + tail))

    def change(self):
        """An insert or a removal, and now and then a look-up."""
        chance = self.chance
        key, n = chance.choice(self.keys), chance.randrange(1000)
        if n < 450:
            return b'insert\t%s\t%d' % (key, n)
        if n < 900:
            return b'remove\t' + key
        return b'len' if n < 920 else b'get\t' + key

    def changes(self, count):
        return [self.change() for _ in range(count)]

    def event(self):
        """Commands on whole maps. Behind them the first map is the one that it was, but for a split."""
        few = self.changes(100)
        front = self.chance.choice(self.keys)[:self.chance.choice((2, 2, 3, 5))]
        return self.chance.choice([
            [b'split\t' + front],
            [b'split\t' + front, b'swap', *few, b'swap'],
            [b'copy'],
            [b'copy', b'swap', *few, b'swap'],
            [b'copy', b'swap', b'reload', *few, b'swap'],
            [b'swap', b'reload', b'swap'],
            [b'swap', b'clear', *few, b'swap'],
        ])

    def same_again(self):
        """Commands that make the keys of the first map those that are kept."""
        there = self.maps.main
        lines = [b'insert\t%s\t1' % key for key in self.kept if key not in there]
        lines += [b'remove\t' + key for key in there if key not in self.kept]
        lines.sort()
        self.chance.shuffle(lines)
        return lines

    def replies(self, lines):
        """The replies to commands, each on a line. A reload changes nothing."""
        for line in lines:
            yield b'ok' if line == b'reload' else line_answer(self.maps, 'bytes', line)[0]


class Script:
    """The input and the right output of a run, as files, and how long the output is at each mark."""

    def __init__(self, folder, seed):
        self.commands = Commands(random.Random(seed))
        self.paths = [os.path.join(folder, name) for name in ('in', 'right')]
        self.files = [open(path, 'wb', buffering=2 ** 20) for path in self.paths]
        self.count, self.answered, self.at_marks = 0, 0, []

    def add(self, lines):
        given, right = self.files
        self.count += len(lines)
        for line, reply in zip(lines, self.commands.replies(lines)):
            if line == MARK_LINES[1]:
                self.at_marks.append(self.answered)
            given.write(line + b'\n')
            right.write(reply + b'\n')
            self.answered += len(reply) + 1

    def make(self, count):
        """Writes so many commands at the least."""
        self.add(MARK_LINES)
        self.add(self.commands.same_again())
        for tenth in range(1, TENTHS + 1):
            while self.count < count * tenth // TENTHS:
                self.add(self.commands.changes(BETWEEN_EVENTS))
                self.add(self.commands.event())
            self.add(self.commands.same_again())
            self.add(MARK_LINES)
        for file in self.files:
            file.close()


def room(length):
    """The room of a list of so many bytes that grew by single bytes and short texts."""
    return max(8, 1 << (length - 1).bit_length()) if length else 0


def run(program, folder, data, lose):
    """Runs the program under the shim. Gives the path of what it wrote, what was live at each mark, and at the end."""
    log, output = (os.path.join(folder, name) for name in ('log', 'out'))
    env = {**os.environ, 'LD_PRELOAD': shim('hostile/live.c'), 'LIVE_LOG': log, 'LIVE_MARK': str(MARK),
           'LIVE_LOSE': str(lose)}
    with open(data, 'rb') as given, open(output, 'wb') as taken:
        subprocess.run([program, 'bytes'], stdin=given, stdout=taken, env=env, check=True)
    with open(log, encoding='ascii') as file:
        said = [line.split('=') for line in file.read().split()]
    return output, [int(n) for name, n in said if name == 'live'], [int(n) for name, n in said if name == 'left']


def main():
    parser = argparse.ArgumentParser()
    parser.add_argument('program')
    parser.add_argument('--commands', type=int, default=5000000)
    parser.add_argument('--lose', type=int, default=0)
    parser.add_argument('--seed', type=int, default=1)
    words = parser.parse_args()
    with tempfile.TemporaryDirectory() as folder:
        script = Script(folder, words.seed)
        script.make(words.commands)
        data, right = script.paths
        output, live, left = run(words.program, folder, data, words.lose)
        assert len(live) == len(script.at_marks) == TENTHS + 1, '%d marks' % len(live)
        subprocess.run(['cmp', output, right], check=True)
    held = [bytes_ - live[0] - room(length) for bytes_, length in zip(live, script.at_marks)][1:]
    print('%d commands, what the maps held on to after each tenth: %s; left at the end: %s'
          % (script.count, ' '.join(map(str, held)), left))
    apart = max(abs(bytes_ / held[0] - 1) for bytes_ in held)
    assert apart <= MOST_APART, '%.1f in 100 more or less than after the first tenth' % (100 * apart)
    assert left == [0], 'bytes are live when the program has ended'
    print('passed: at most %.2f in 100 apart' % (100 * apart))


if __name__ == '__main__':
    main()
