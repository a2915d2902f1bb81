"""Writes a list and the lines that are asked of it for each command: lists.py NAMES LINES FOLDER. From a fixed seed,
the files COMMAND.list and COMMAND.lines: routes of paths, titles and prefixes of some, domains and hosts below some of
them, words and texts of some of them; and as `networks` for each five names one IPv4 network, for each ten one IPv6
network, and for each line an address, of which three of four are in one of these at least."""
import os
import random
import socket
import subprocess
import sys

HERE = os.path.dirname(os.path.abspath(__file__))
LABELS = ['www', 'cdn', 'eu', 'img', 'static', 'a', 'b', 'mail']


def keys(kind, count):
    """Keys of the benchmark of the map."""
    made = subprocess.run([sys.executable, '-B', os.path.join(HERE, '../bench/keys.py'), kind, str(count), '1'],
                          stdout=subprocess.PIPE, check=True)
    return made.stdout.decode('ascii').split('\n')[:-1]


def write(path, rows):
    with open(path, 'w', encoding='utf-8') as file:
        file.writelines(row + '\n' for row in rows)


def network(chosen, version):
    """A network of a length that is common in the tables of the internet: its version, length and first address."""
    if version == 4:
        length = chosen.choice([24] * 12 + [23, 23, 22, 22, 22, 21, 20, 20, 19, 18, 17, 16, 14, 12])
        return 4, length, chosen.randrange(1 << 24, 224 << 24) >> 32 - length << 32 - length
    length = chosen.choice([48] * 9 + [32] * 4 + [44, 44, 40, 40, 36, 29, 56, 64])
    first = chosen.choice([0x2001, 0x2400, 0x2600, 0x2804, 0x2a00, 0x2c00]) << 112
    return 6, length, (first | chosen.getrandbits(116)) >> 128 - length << 128 - length


def address_text(version, number):
    if version == 4:
        return socket.inet_ntop(socket.AF_INET, number.to_bytes(4, 'big'))
    return socket.inet_ntop(socket.AF_INET6, number.to_bytes(16, 'big'))


def networks(chosen, count):
    """Networks of which no two are the same."""
    found = {}
    for version, wanted in (4, count // 5), (6, count // 10):
        end = len(found) + wanted
        while len(found) < end:
            found[network(chosen, version)] = None
    return chosen.sample(list(found), len(found))


def address_near(chosen, listed):
    """An address in one of some networks, or at random."""
    version, length, first = chosen.choice(listed)
    if chosen.random() < 0.25:
        version, length, first = network(chosen, version)
    return address_text(version, first | chosen.getrandbits((32 if version == 4 else 128) - length))


def main():
    count, lines, folder = int(sys.argv[1]), int(sys.argv[2]), sys.argv[3]
    chosen = random.Random(1)
    titles = keys('titles', count)
    domains = ['.'.join(reversed(domain.split('.'))) for domain in keys('domains', count)]

    def path_of(title):
        return '/' + title.lower().replace('_', '/') + '/'

    def write_pair(command, listed, asked):
        write(os.path.join(folder, command + '.list'), listed)
        write(os.path.join(folder, command + '.lines'), asked)

    write_pair('route', ('%s\t%d' % (path_of(title), at) for at, title in enumerate(titles)),
               (path_of(chosen.choice(titles)) + 'of/2026' for _ in range(lines)))
    write_pair('complete', titles, (title[:len(title) * 3 // 4] for title in chosen.choices(titles, k=lines)))
    write_pair('block', domains[::2],
               (chosen.choice(LABELS) + '.' + domain for domain in chosen.choices(domains, k=lines)))
    listed = networks(chosen, count)
    write_pair('networks', ('%s/%d\t%d' % (address_text(version, first), length, at)
                            for at, (version, length, first) in enumerate(listed)),
               (address_near(chosen, listed) for _ in range(lines)))
    words = sorted({word for title in titles for word in title.lower().split('_')})
    write_pair('segment', words, (''.join(chosen.choices(words, k=4)) for _ in range(lines)))


main()
