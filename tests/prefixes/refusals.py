"""Commands of `prefixes` with each of their memory requests refused in turn.

Each run either does what it does where none is refused, or ends with status 2 and says that memory ran out, or that
its arguments are not read, and has written the answers to all lines before the one at which it was refused. What a
refused `pack` or `combine` wrote is nothing or the whole file.
"""
import os
import re
from tests.support import one_by_one, refused

SAID = b'out of memory', b'the arguments are not read'
LINE = re.compile(rb'prefixes: standard input: line (\d+): ')
COMMANDS = [
    (['route', 'routes'], b'/api/users/7\n/x\napi\n'),
    (['route', 'routes'], b'/api/users/7\nx\n' * 200),
    (['route', 'networks', '--cidr'], b'10.1.2.3\n::1\n2001:db8::1\n'),
    (['route', 'networks', '--cidr', '--json'], b'10.9.9.9\n::1\n'),
    (['complete', 'names', '-n', '2'], b'foo\nba\nx\n'),
    (['near', 'names', '-k', '2'], b'fooo\nx\n'),
    (['block', 'blocked'], b'eu.ads.example.com\nmytracker.net\nCDN.tracker.net.\n'),
    (['block', 'blocked'], b'cdn.Tracker.net\n\xff\n\n' * 100),
    (['tree', 'settings'], b'log\nlo\n'),
    (['tree', '--drop', 'settings'], b'log.level\nlog\nlog\n'),
    (['segment', 'words'], 'xapplepie\n北京大学生\n'.encode()),
    (['segment', 'words'], 'xapplepie\n北京大学生\n\n'.encode() * 20),
    (['complete', 'packed'], b'foo\n'),
    (['stats', 'names'], b''),
    (['draw', 'settings', 'log'], b''),
    (['draw', '--dot', 'packed'], b''),
    (['route', 'routes', '--json'], b'/api/users/7\napi\n'),
    (['complete', 'names', '-n', '2', '--json'], b'foo\nx\n'),
    (['near', 'names', '--json'], b'fooo\nx\n'),
    (['block', 'blocked', '--json'], b'CDN.tracker.net.\n\xff\n'),
    (['tree', 'settings', '--json'], b'log\nlo\n'),
    (['segment', 'words', '--json'], b'xapplepie\n'),
    (['stats', 'names', '--json'], b''),
    (['draw', 'names', 'foo', '--json'], b''),
    (['complete', '-', '--lines', 'words'], b'apple\nwords\n'),
    (['complete', 'names', '--null'], b'foo\0ba\0'),
    (['pack', 'names', 'made'], b''),
    (['combine', 'union', 'names', 'words', '-o', 'made'], b''),
    (['combine', 'intersection', 'names', 'packed', '-o', 'made', '--as-lines'], b''),
    (['combine', 'difference', 'names', 'words', 'settings', '-o', 'made'], b''),
]


def check(program, words, data, folder):
    """Asserts what each run of a command does in a folder with the lists."""
    words, path = [program, *words], os.path.join(folder, 'made')
    whole = refused(words, data=data, cwd=folder)
    assert whole.returncode in (0, 1), words
    packed = taken(path)
    assert packed or 'made' not in words[1:]
    for at, ran in one_by_one(words, data, cwd=folder):
        told, is_same, made = (words, at, ran), ran[:2] == whole[:2], taken(path)
        if not ran.is_refused:
            assert is_same and made == packed and at > 1, told
        elif not is_same or ran.stderr:
            assert ran.returncode == 2 and any(said in ran.stderr for said in SAID), told
            # the lines of a file are not cut short here
            wanted = whole.stdout[:len(ran.stdout)] if '--lines' in words else due(words, data, at, ran.stderr, folder)
            assert ran.stdout == wanted, told
            assert made in (b'', packed), told
        else:
            assert made == packed, told


def due(words, data, at, errors, folder):
    """The answers to the lines before the one at which the request of this number is refused: the one that is named, or
    else the first up to which a run makes so many requests."""
    lines = re.findall(rb'[^\0\n]*[\0\n]', data)
    named = LINE.match(errors)
    if named:
        return refused(words, data=b''.join(lines[:int(named[1]) - 1]), cwd=folder).stdout
    before = b''
    for count in range(len(lines) + 1):
        ran = refused(words, data=b''.join(lines[:count]), cwd=folder)
        if ran.requests >= at:
            return before
        before = ran.stdout
    return before


def taken(path):
    """What stands in the file that a command writes, which is removed."""
    if not os.path.exists(path):
        return b''
    with open(path, 'rb') as file:
        packed = file.read()
    os.remove(path)
    return packed
