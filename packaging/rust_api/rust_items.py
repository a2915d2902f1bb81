"""The public items of Rust sources, each by a name and in a normalized form.

Two forms are the same if the items differ only in names of parameters, arguments and lifetimes, in the order of bounds,
in whether bounds are inline or in a `where`, in paths of modules and in spaces.
"""
import re
from typing import NamedTuple

TOKEN = re.compile(r"""
    (?P<skip>\s+|//[^\n]*|/\*.*?\*/)
  | (?P<text>"(?:\\.|[^"\\])*"|b?'(?:\\.|[^'\\])'|b"(?:\\.|[^"\\])*")
  | (?P<life>'\w+)
  | (?P<word>\w+)
  | (?P<mark>->|=>|::|\.\.=|\.\.|[^\w\s])
""", re.X | re.S)
PAIRS = {'(': ')', '[': ']', '{': '}', '<': '>'}


class Item(NamedTuple):
    """A public item, of a module: what names it, and its form."""
    module: str
    name: str
    form: str


def tokens(source):
    """The words and marks of a source, without comments and spaces."""
    return [m[0] for m in TOKEN.finditer(source) if m.lastgroup != 'skip']


def behind(words, at):
    """The place behind the group that begins at a place, which is the place itself if none does."""
    if at >= len(words) or words[at] not in PAIRS:
        return at
    first, last = words[at], PAIRS[words[at]]
    depth = 0
    for place in range(at, len(words)):
        depth += (words[place] == first) - (words[place] == last)
        if depth == 0:
            return place + 1
    raise ValueError('a group has no end: %s' % ' '.join(words[at:at + 9]))


def parted(words, mark=','):
    """The lists of words between marks that are in no group."""
    parts, depth = [[]], 0
    for word in words:
        depth += (word in PAIRS) - (word in PAIRS.values())
        if word == mark and depth == 0:
            parts.append([])
        else:
            parts[-1].append(word)
    return [part for part in parts if part]


def without_paths(words):
    """Words without the modules of paths, lifetimes that are left out, and commas at the end."""
    text = ' '.join(words) + ' '
    text = re.sub(r'(?:\b[a-z_]\w* :: )+', '', text)
    text = re.sub(r"< '_ > ", '', text)
    text = re.sub(r"< '_ , ", '< ', text)
    text = re.sub(r"& '_ ", '& ', text)
    return re.sub(r', (?=[)>\]])', '', text).split()


def behind_angles(words, at):
    """The place behind the angle brackets that begin at a place, which is the place itself if none do."""
    return behind(words, at) if words[at:at + 1] == ['<'] else at


class Scope:
    """The parameters of an item and those around it, in order, and the bounds on types."""

    def __init__(self, around=None):
        self.names = list(around.names) if around else []
        self.bounds = {of: list(bounds) for of, bounds in around.bounds.items()} if around else {}

    def bound(self, of, words):
        """Adds bounds with `+` between them."""
        kept = self.bounds.setdefault(' '.join(of), [])
        kept.extend(' '.join(part) for part in parted(words, '+'))

    def declare(self, words):
        """Adds what is between the angle brackets of an item."""
        for part in parted(words):
            part = part[1:] if part[0] == 'const' else part
            self.names.append(part[0])
            self.bound(part[:1], part[2:])

    def where(self, words):
        """Adds the bounds after `where`."""
        for part in parted(words):
            at = part.index(':')
            self.bound(part[:at], part[at + 1:])

    def form(self, text):
        """A text with the bounds behind it, and with numbers for the names of parameters."""
        texts = {}
        for number, name in enumerate(self.names, 1):
            texts[name] = ("'" if name[0] == "'" else 'Type') + str(number)
        pattern = '|'.join(r"(?<![\w'])%s(?!\w)" % re.escape(name) for name in texts)

        def renamed(text):
            return re.sub(pattern, lambda m: texts[m[0]], text) if texts else text
        rows = []
        for of, bounds in self.bounds.items():
            if bounds:
                rows.append('%s: %s' % (renamed(of), ' + '.join(sorted(set(map(renamed, bounds))))))
        return ' '.join(renamed(text).split()) + (' where ' + ', '.join(sorted(rows)) if rows else '')


def cut_where(words):
    """What is before `where`, and what is behind it."""
    if 'where' not in words:
        return words, []
    at = words.index('where')
    return words[:at], words[at + 1:]


def argument(words, number):
    """An argument, with a number for its name; `self` as it is."""
    if 'self' in words and ':' not in words:
        return ' '.join(word for word in words if word != 'mut' or '&' in words)
    at = words.index(':')
    return 'a%d : %s' % (number, ' '.join(words[at + 1:]))


def function(words, around):
    """The name and the form of a function, whose words begin behind `fn` and end before its body."""
    words = without_paths(words)
    scope = Scope(around)
    opened = behind_angles(words, 1)
    scope.declare(words[2:opened - 1] if opened > 1 else [])
    closed = behind(words, opened)
    given = [argument(part, n) for n, part in enumerate(parted(words[opened + 1:closed - 1]))]
    result, where = cut_where(words[closed:])
    scope.where(where)
    return words[0], scope.form('fn %s ( %s ) %s' % (words[0], ', '.join(given), ' '.join(result)))


def associated_type(words, around):
    """The form of an associated type, whose words are without the semicolon."""
    words, where = cut_where(without_paths(words))
    scope = Scope(around)
    scope.where(where)
    if words[2:3] == [':']:
        scope.bound([words[1]], words[3:])
        words = words[:2]
    return scope.form(' '.join(words))


def until(words, at, marks):
    """The place of the first of some marks that is in no group but angle brackets."""
    while at < len(words) and words[at] not in marks:
        at = behind(words, at) if words[at] in '([{' else at + 1
    return at


def whole_item(words, at):
    """The place behind an item: behind its body, or behind the semicolon."""
    end = until(words, at, ('{', ';'))
    return behind(words, end) if end < len(words) and words[end] == '{' else end + 1


def head(words, at):
    """The words of an item that are before its body."""
    return words[at:until(words, at, ('{', ';'))]


def implementation(words):
    """The scope of an `impl`, its trait or nothing, and its type, whose words begin behind `impl`."""
    for number in range(words.count("'_")):
        words[words.index("'_")] = "'left%d" % number
    left = [word for word in words if word.startswith("'left")]
    words = without_paths(words)
    scope = Scope()
    opened = behind_angles(words, 0)
    scope.declare([word for name in left for word in (name, ',')])
    scope.declare(words[1:opened - 1] if opened else [])
    rest, where = cut_where(words[opened:])
    scope.where(where)
    if 'for' in rest:
        at = rest.index('for')
        return scope, rest[:at], rest[at + 1:]
    return scope, [], rest


def declared_type(words, at):
    """The form of a `struct`, an `enum` or a `trait`, and its name."""
    words = without_paths(head(words, at))
    kind, name = words[:2]
    scope = Scope()
    opened = behind_angles(words, 2)
    scope.declare(words[3:opened - 1] if opened > 2 else [])
    rest, where = cut_where(words[opened:])
    scope.where(where)
    if kind == 'trait' and rest:
        scope.bound(['Self'], rest[1:])
    return name, scope.form('%s %s %s' % (kind, name, ' '.join(scope.names)))
