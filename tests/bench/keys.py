"""Prints distinct keys, one a line: keys.py titles|domains|hex COUNT SEED."""
import random
import sys

# Words of titles, the frequent ones first.
WORDS = """of the in and history list by at university saint river county new north national south
county school john station west church football club american east lake district state william
park battle house season championship museum railway art james king great city war women album
film island languages politics elections census cup league open airport valley castle bridge
mountain society culture province region basin forest academy institute orchestra festival""".split()
ENDINGS = ["com", "org", "net", "de", "uk.co", "jp.co", "fr", "it", "info", "edu"]
HOSTS = ["www", "mail", "shop", "blog", "api", "static", "img", "dev"]
LETTERS = "abcdefghijklmnopqrstuvwxyz"


def name(source, low, high):
    return "".join(source.choice(LETTERS) for _ in range(source.randint(low, high)))


def frequent(source, words):
    """A word of a list, the first ones more often."""
    return words[int(len(words) * source.random() ** 2)]


def title(source):
    """A title of some 30 bytes: words that many share, and a name."""
    words = [frequent(source, WORDS) for _ in range(source.randint(2, 6))]
    words.insert(source.randrange(len(words) + 1), name(source, 4, 9))
    text = "_".join(words)
    return text[0].upper() + text[1:]


def domain(source):
    """A domain with its parts reversed."""
    parts = [frequent(source, ENDINGS), name(source, 3, 12)]
    if source.random() < 0.7:
        parts.append(frequent(source, HOSTS))
    return ".".join(parts)


def hexadecimal(source):
    return f"{source.getrandbits(128):032x}"


KINDS = {"titles": title, "domains": domain, "hex": hexadecimal}


def main():
    kind, count, seed = sys.argv[1], int(sys.argv[2]), int(sys.argv[3])
    source = random.Random(f"{kind} {seed}")
    seen = set()
    while len(seen) < count:
        key = KINDS[kind](source)
        if key not in seen:
            seen.add(key)
            print(key)


main()
