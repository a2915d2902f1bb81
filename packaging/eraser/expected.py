"""What the tokens of the output have to be, by one walk over the tokens of a source.

The walk skips each construct that the rules drop, gives the new tokens for each that they rename, and gives every other
token as it is. It shares no code with the rules of the eraser.
"""
from exceptions import CRATES
from tokens import Token, Unreadable, scan

BRACES = {'(': ')', '[': ']', '{': '}'}
PRELUDE = 'use crate::rt::prelude::*;'
FRONT = '# use patricia::workbench::*;', '# fn main() -> Result<(), Fail> {'
BACK = '# Ok(())', '# }'
# What replaces the first name of a path. A crate is replaced by its module.
ROOTS = dict({name: 'crate::proved::' + name for name in CRATES}, std='crate::rt')
VISIBLE = 'pub(crate)'


class Walk:
    """A walk over the tokens of a source: where it is, what it has given, and what it has to give at a later place."""

    def __init__(self, tokens, crate, unbounded, visible):
        self.tokens = [token for token in tokens if token.kind != 'note']
        self.roots = dict(ROOTS, crate='crate::proved::' + crate)
        self.unbounded, self.visible = set(unbounded), set(visible)
        self.at, self.given = 0, []
        self.later, self.shown = {}, set()
        self.has_prelude = False

    def text(self, ahead=0):
        """The text of the token so far ahead."""
        place = self.at + ahead
        return self.tokens[place].text if 0 <= place < len(self.tokens) else ''

    def texts(self, count):
        return [self.text(ahead) for ahead in range(count)]

    def give(self, text):
        """Gives the tokens of a text of its own."""
        for token in scan(text):
            self.put(token._replace(line=self.line()))

    def put(self, token):
        """Gives a token. The prelude comes before the first that is neither a module's comment nor its attribute."""
        if not self.has_prelude and not token.text.startswith('//!') and not self.is_inner():
            self.has_prelude = True
            self.give(PRELUDE)
        self.given.append(token)

    def is_inner(self):
        return self.text() == '#' and self.text(1) == '!'

    def line(self):
        return self.tokens[min(self.at, len(self.tokens) - 1)].line

    def take(self, count=1):
        """Gives the next tokens as they are."""
        for _ in range(count):
            self.put(self.tokens[self.at])
            written = self.later.pop(self.at, None)
            self.at += 1
            if written:
                self.give(written)

    def end(self, place):
        """The place behind the bracket that closes the one at a place."""
        opening = self.tokens[place].text
        closing, depth = BRACES[opening], 0
        for at in range(place, len(self.tokens)):
            depth += self.tokens[at].text == opening
            depth -= self.tokens[at].text == closing
            if depth == 0:
                return at + 1
        raise Unreadable('line %d: %s is not closed' % (self.tokens[place].line, opening))

    def find(self, text, place):
        """The place of the next token of code with this text."""
        while place < len(self.tokens) and self.tokens[place].text != text:
            place += 1
        if place == len(self.tokens):
            raise Unreadable('there is no %s' % text)
        return place


def is_model(walk, place):
    """Whether an `impl Model` begins at a place."""
    if place >= len(walk.tokens) or walk.tokens[place].text != 'impl':
        return False
    head = [token.text for token in walk.tokens[place:walk.find('{', place)]]
    return any(pair == ('Model', 'for') for pair in zip(head, head[1:]))


def comments(walk):
    """Gives the documentation of an item, if the item stays, with its examples as tests."""
    end = walk.at
    while end < len(walk.tokens) and walk.tokens[end].kind == 'doc':
        end += 1
    if end == walk.at:
        return False
    told, walk.at = walk.tokens[walk.at:end], end
    if told[0].text.startswith('///') and (walk.text() == 'ghost' or is_model(walk, end)):
        return True
    for line in documentation(told):
        walk.put(line)
    return True


def documentation(told):
    """The lines of documentation, with what makes a test of each example."""
    is_test = False
    for token in told:
        mark, said = token.text[:3], token.text[3:].strip()
        if said.startswith('```'):
            around = [token._replace(text='%s %s' % (mark, line)) for line in (BACK if is_test else FRONT)]
            opened = token._replace(text=token.text + 'text')
            yield from around + [token] if is_test else [opened] + around
            is_test = not is_test
        elif not is_test:
            yield token
        elif said.split(' ')[0] not in ('requires', 'ensures'):
            text = token.text.replace('rt.alloc()', 'Global')
            for call in 'assert!(', 'assert_eq!(', 'assert_ne!(':
                text = text.replace(call + 'rt; ', call).replace(call + 'rt;', call)
            yield token._replace(text=text)


def ghost(walk):
    """Skips a ghost import, a ghost member or a ghost field."""
    if walk.text() != 'ghost':
        return False
    stops = (';',) if walk.text(1) == 'use' else (';', ',')
    while walk.text() not in stops + ('}',):
        walk.at = walk.end(walk.at) if walk.text() == '{' else walk.at + 1
    walk.at += walk.text() != '}'
    return True


def clause(walk):
    """Skips a clause of a contract."""
    if walk.text() not in ('requires', 'ensures'):
        return False
    opening = walk.find('{', walk.at)
    if opening - walk.at > 3:
        raise Unreadable('line %d: a clause without an expression' % walk.line())
    walk.at = walk.end(opening)
    return True


def attribute(walk):
    """Skips the attributes of the checker and of errors, and what derives of Rust do not know."""
    if walk.text() != '#' or walk.text(1) not in ('[', '!'):
        return False
    inner = walk.text(1) == '!'
    end, name = walk.end(walk.at + 1 + inner), walk.text(2 + inner)
    if name in ('tactic', 'cycle', 'error'):
        walk.at = end
    elif name == 'derive':
        names = [token.text for token in walk.tokens[walk.at + 4:end - 2] if token.text != ',']
        if 'Error' in names:
            error(walk, end)
        names = [name for name in names if name not in ('Drop', 'Error')]
        if names:
            walk.give('#[derive(%s)]' % ', '.join(names))
        walk.at = end
    elif inner:
        walk.given += walk.tokens[walk.at:end]
        walk.at = end
    else:
        walk.take(end - walk.at)
    return True


def error(walk, place):
    """Has the two impls of an error given behind its type."""
    item = next(at for at in range(place, len(walk.tokens)) if walk.tokens[at].text in ('struct', 'enum'))
    name, opening = walk.tokens[item + 1].text, walk.find('{', item)
    generics = ''.join(token.text for token in walk.tokens[item + 3:opening - 1])
    whole, of, debug = name, '', ''
    if generics:
        whole, of, debug = '%s<%s>' % (name, generics), '<%s>' % generics, '<%s: core::fmt::Debug>' % generics
    last = walk.end(opening) - 1
    said = ''
    for at in range(place, last):
        if [token.text for token in walk.tokens[at:at + 4]] == ['#', '[', 'error', '(']:
            text, variant = walk.tokens[at + 4].text, walk.tokens[at + 7].text
            if at < item:
                said = 'f.write_str(%s)' % text
            elif walk.tokens[at + 8].text == '(':
                said += '%s::%s(at) => write!(f, %s, at),' % (name, variant, text)
            else:
                said += '%s::%s => f.write_str(%s),' % (name, variant, text)
    if walk.tokens[item].text == 'enum':
        said = 'match self { %s }' % said
    walk.later[last] = (
        'impl%s core::fmt::Display for %s {'
        " fn fmt(&self, f: &mut core::fmt::Formatter<'_>) -> core::fmt::Result { %s }"
        ' } impl%s core::error::Error for %s {}' % (of, whole, said, debug, whole))


def implementation(walk):
    """Skips an `impl Model`, and gives the `Clone` of Rust for that of a type that is `Copy`."""
    if walk.text() != 'impl':
        return False
    opening = walk.find('{', walk.at)
    if is_model(walk, walk.at):
        walk.at = walk.end(opening)
        return True
    head = [token.text for token in walk.tokens[walk.at:opening]]
    body = ' '.join(token.text for token in walk.tokens[opening:walk.end(opening)])
    if ('Clone', 'for') in zip(head, head[1:]) and body.endswith('{ Ok ( * self ) } }'):
        walk.take(head.index('Clone'))
        walk.give('core::clone::Clone')
        walk.at += 1
        walk.take(opening - walk.at)
        walk.give('{ fn clone(&self) -> Self { *self } }')
        walk.at = walk.end(opening)
        return True
    return False


def drop_bound(walk):
    """Skips the bound `Drop`. In its place a trait is below `Sized`."""
    sign, bound, following = walk.texts(3)
    if sign not in (':', '+') or bound != 'Drop' or following == 'for':
        return False
    if following == '+':
        walk.take()
        walk.at += 2
    elif following == '{':
        walk.take()
        walk.give('Sized')
        walk.at += 1
    else:
        walk.at += 2
    return True


def path(walk):
    """Gives the module of a crate in place of the crate's name at the front of a path."""
    if walk.texts(3)[1:] != [':', ':']:
        return False
    if walk.text(-1) == ':' and walk.tokens[walk.at - 1].is_glued:
        return False
    walk.give(walk.roots[walk.text()])
    walk.at += 1
    return True


def imported(walk):
    """Skips an import of what is gone, and takes `Model` out of one of several names."""
    if walk.text() != 'use':
        return False
    end = walk.find(';', walk.at)
    names = [token.text for token in walk.tokens[walk.at:end]]
    if names[1] == 'thiserror' or names[-1] == 'Model':
        walk.at = end + 1
        return True
    if 'Model' in names:
        place = walk.at + names.index('Model')
        comma = walk.tokens[place + 1].text != ','
        del walk.tokens[place - comma:place + 2 - comma]
    return False


def writer(walk):
    """Gives a formatter without the type of its writer."""
    if walk.texts(7) == ['fn', 'fmt', '<', 'W', ':', 'Write', '>']:
        walk.take(2)
        walk.at += 5
        return True
    if walk.texts(4) == ['Formatter', '<', 'W', '>']:
        walk.give("Formatter<'_>")
        walk.at += 4
        return True
    return False


def shown(walk):
    """Gives an item or a field that a list names as visible in the package, and a struct that it names unbounded."""
    kind, name = walk.texts(2)
    if walk.at in walk.shown:
        walk.give(VISIBLE)
        walk.take()
        return True
    item = '%s %s' % (kind, name)
    if item in walk.visible:
        walk.visible.discard(item)
        walk.give(VISIBLE)
    if kind == 'struct':
        note_fields(walk, name)
    if kind != 'struct' or name not in walk.unbounded:
        return False
    walk.unbounded.discard(name)
    walk.take(2)
    parameters(walk)
    return True


def note_fields(walk, struct):
    """Notes where the fields of a struct are that a list names, so that they are given as visible there."""
    for field in [entry for entry in walk.visible if entry.startswith(struct + '.')]:
        opening = walk.find('{', walk.at)
        for place in range(opening, walk.end(opening)):
            before, name, behind = [token.text for token in walk.tokens[place - 1:place + 2]]
            if name == field[len(struct) + 1:] and before in ('{', ',') and behind == ':':
                walk.shown.add(place)
                walk.visible.discard(field)


def parameters(walk):
    """Gives the type parameters of a struct without their bounds."""
    depth = 0
    is_bound = False
    while True:
        sign = walk.text()
        depth += (sign == '<') - (sign == '>')
        if depth == 1 and sign == ':':
            is_bound = True
        if depth == 0 or depth == 1 and sign == ',':
            is_bound = False
        if is_bound:
            walk.at += 1
        else:
            walk.take()
        if depth == 0:
            return


# What is tried at a token, by its text.
STEPS = {'ghost': [ghost], 'requires': [clause], 'ensures': [clause], '#': [attribute], 'impl': [implementation],
         ':': [drop_bound], '+': [drop_bound], 'use': [imported], 'fn': [writer, shown], 'Formatter': [writer],
         'mod': [shown], 'struct': [shown]}


def steps(walk):
    """The functions that are tried where the walk is. One that returns true has gone on."""
    token = walk.tokens[walk.at]
    if token.kind == 'doc':
        return [comments]
    if token.text in walk.roots:
        return [path]
    return STEPS.get(token.text, []) if walk.at not in walk.shown else [shown]


def expected(tokens, crate, unbounded=(), visible=()):
    """The tokens that the output has to have of a source with these, but for its exceptions, and the entries of the
    lists that fit nothing."""
    walk = Walk(tokens, crate, unbounded, visible)
    while walk.at < len(walk.tokens):
        if not any(step(walk) for step in steps(walk)):
            walk.take()
    return walk.given, sorted(walk.unbounded | walk.visible)


def excepted(tokens, old, new):
    """The tokens with a part of them replaced, or None unless they have it once."""
    part = [token.content for token in scan(old)]
    places = [at for at in range(len(tokens) - len(part) + 1)
              if tokens[at].content == part[0] and [token.content for token in tokens[at:at + len(part)]] == part]
    if len(places) != 1:
        return None
    at = places[0]
    fresh = [Token(token.text, token.kind, token.is_glued, tokens[at].line) for token in scan(new)]
    return tokens[:at] + fresh + tokens[at + len(part):]
