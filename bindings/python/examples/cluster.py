"""A map on more than one machine, over dask.distributed: here a cluster of processes on this one.

    python3 cluster.py [--routes N] [--keys N] [--words N] [--parts N] [--workers N]

A table of routes is broadcast once, and keys are routed in partitions. Then words are counted:
each partition makes a map of its words and cuts it by first letter, and the pieces of one letter
are added in one task. Maps travel as their tree bytes and values, which is how they are pickled.
The answers are compared with those of one process.
"""
import argparse
import random
import time
from collections import Counter

from distributed import Client, LocalCluster
from patricia import StringPatriciaMap

LETTERS = 'abcdefghijklmnopqrstuvwxyz'


def path(rng, depth):
    """A path of some parts, of which the first ones are rare and the last ones are not."""
    return ''.join('/' + rng.choice(LETTERS) * (1 + rng.randrange(3)) for _ in range(depth))


def make_routes(count):
    """A table from paths to numbers. Each path begins with the root, which is a route."""
    rng = random.Random(0)
    routes = StringPatriciaMap({'/': 0})
    while len(routes) < count:
        routes[path(rng, 1 + rng.randrange(8))] = len(routes) % 1000
    return routes


def route(routes, part, count):
    """How many keys of a partition each route takes, by the route's number."""
    rng = random.Random(part + 1)
    found = (routes.longest_prefix(path(rng, 6)) for _ in range(count))
    return Counter(value for _, value in found)


def make_words(part, count):
    """The words of a partition, some often."""
    rng = random.Random(-part - 1)
    for _ in range(count):
        size = 1 + min(rng.randrange(6), rng.randrange(6))
        yield ''.join(rng.choice(LETTERS) for _ in range(size))


def count_words(words):
    """A map from words to how often they came."""
    counts = StringPatriciaMap()
    for word in words:
        counts[word] = counts.get(word, 0) + 1
    return counts


def cut(counts):
    """A map by the first letter of its keys: disjoint maps that hold all of it."""
    return {letter: counts.split_by_prefix(letter) for letter in LETTERS}


def piece(pieces, letter):
    return pieces[letter]


def merge(pieces):
    """The sum of maps of one prefix."""
    total = pieces[0].copy()
    for other in pieces[1:]:
        for word, count in other.items():
            total[word] = total.get(word, 0) + count
    return total


def routed(client, routes, arguments):
    """Routes keys in partitions over a table that each worker has once."""
    table = client.scatter(routes, broadcast=True)
    parts = range(arguments.parts)
    counts = client.map(lambda part, table: route(table, part, arguments.keys), parts, table=table)
    return sum(client.gather(counts), Counter())


def counted(client, arguments):
    """Counts words in partitions, and returns a map for each first letter."""
    parts = range(arguments.parts)
    cuts = client.map(lambda part: cut(count_words(make_words(part, arguments.words))), parts)
    merged = {letter: client.submit(merge, [client.submit(piece, x, letter) for x in cuts])
              for letter in LETTERS}
    return client.gather(merged)


def timed(what, call, *words):
    start = time.perf_counter()
    result = call(*words)
    print('%s: %.1f s' % (what, time.perf_counter() - start), flush=True)
    return result


def routed_here(routes, arguments):
    """What `routed` returns, without a cluster."""
    counts = (route(routes, part, arguments.keys) for part in range(arguments.parts))
    return sum(counts, Counter())


def counted_here(arguments):
    """How often each word comes, without a cluster."""
    words = Counter()
    for part in range(arguments.parts):
        words.update(make_words(part, arguments.words))
    return words


def parsed():
    parser = argparse.ArgumentParser(description=__doc__.splitlines()[0])
    parser.add_argument('--routes', type=int, default=1000000, help='in the table')
    parser.add_argument('--keys', type=int, default=625000, help='to be routed in each one')
    parser.add_argument('--words', type=int, default=625000, help='to be counted in each one')
    parser.add_argument('--parts', type=int, default=8, help='partitions')
    parser.add_argument('--workers', type=int, default=2, help='processes')
    return parser.parse_args()


def main():
    arguments = parsed()
    routes = timed('table', make_routes, arguments.routes)
    counts = timed('routed in one process', routed_here, routes, arguments)
    words = timed('counted in one process', counted_here, arguments)
    with LocalCluster(n_workers=arguments.workers, threads_per_worker=1, host='127.0.0.1',
                      dashboard_address=None) as cluster, Client(cluster) as client:
        routed_counts = timed('routed', routed, client, routes, arguments)
        by_letter = timed('counted', counted, client, arguments)
    merged = {word: (letter, count) for letter, part in by_letter.items()
              for word, count in part.items()}
    if routed_counts != counts or merged != {word: (word[0], words[word]) for word in words}:
        raise SystemExit('the answers are not those of one process')
    print('ok: %d keys and %d words' % (sum(counts.values()), sum(words.values())))


if __name__ == '__main__':
    main()
