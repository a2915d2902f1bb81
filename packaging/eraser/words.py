"""Splits a Rattle source into words, and finds words and brackets among others.

A contract, a ghost item or a ghost member is one word, whatever is in it. The text of all words, one after the other,
is the source. A rule drops a word by making it gone, which keeps the places of the others, and `text_of` joins the
white space on its two sides.
"""
import re

CLAUSES = {'requires', 'ensures'}
PAIRS = {'{': '}', '(': ')', '[': ']', '<': '>'}
WORD = re.compile(r"""
    (?P<space>\s+)
  | (?P<comment>//[^\n]*)
  | (?P<string>[bc]?r(?P<hashes>\#*)".*?"(?P=hashes)|[bc]?"(?:\\.|[^"\\])*")
  | (?P<char>b?'(?:\\u\{[0-9a-fA-F_]+\}|\\x[0-9a-fA-F]{2}|\\.|[^'\\])')
  | (?P<lifetime>'[A-Za-z_]\w*)
  | (?P<name>[A-Za-z_]\w*)
  | (?P<number>\d\w*(?:\.\d\w*)?)
  | (?P<mark>::|->|=>|\.\.=|\.\.|.)
""", re.X | re.S)
CLAUSE = re.compile(r'(?:requires|ensures\*?)(?:\s+\w+)?\s*(?=\{)')
# Parts of a contract whose brackets do not count.
QUIET = re.compile(r'"(?:\\.|[^"\\])*"|(?<![^\s(){};])--(?=[\s-]).*')


class Mistake(Exception):
    """What stops the eraser: a source or an exception that no rule fits."""


class Word:
    """A word, its kind, and the line on which it begins."""
    __slots__ = 'kind', 'text', 'line'

    def __init__(self, kind, text, line=0):
        self.kind, self.text, self.line = kind, text, line

    def __repr__(self):
        return '%s %r' % (self.kind, self.text)

    def drop(self):
        """Makes the word gone."""
        self.kind, self.text = 'gone', ''

    @property
    def is_code(self):
        return self.kind not in ('space', 'comment', 'gone', 'written')


def comment_end(text, at):
    """The end of a block comment, which may have others inside."""
    depth = 0
    for found in re.compile(r'/\*|\*/').finditer(text, at):
        depth += 1 if found[0] == '/*' else -1
        if depth == 0:
            return found.end()
    raise Mistake('a comment has no end')


def note_end(text, at):
    """The end of a comment of antt that begins by a brace, which may have others inside."""
    depth = 0
    for found in re.compile(r'\{-|-\}').finditer(text, at):
        depth += 1 if found[0] == '{-' else -1
        if depth == 0:
            return found.end()
    raise Mistake('a comment of antt has no end')


def antt_end(text, at, stops):
    """The end of a part of a contract: the first of the stops outside of braces. A brace that closes what is around
    the part ends it, too, and does not belong to it."""
    depth = 0
    while at < len(text):
        quiet = QUIET.match(text, at)
        if quiet or text.startswith('{-', at):
            at = quiet.end() if quiet else note_end(text, at)
            continue
        sign = text[at]
        if sign == '}' and depth == 0:
            return at
        depth += (sign == '{') - (sign == '}')
        at += 1
        if depth == 0 and sign in stops:
            return at
    raise Mistake('a piece of antt has no end')


def special_end(text, found):
    """The kind and the end of a word that the expression WORD does not cut as it is: a piece of antt or a block
    comment."""
    word, at = found[0], found.start()
    if word == 'ghost':
        return 'ghost', antt_end(text, at, ';,' if not re.match(r'\s+use\b', text[at + 5:at + 15]) else ';')
    if word in CLAUSES:
        head = CLAUSE.match(text, at)
        if not head:
            raise Mistake('no clause: %r' % text[at:at + 40])
        return 'clause', antt_end(text, head.end(), '}')
    if text.startswith('/*', at):
        return 'comment', comment_end(text, at)
    return found.lastgroup, found.end()


def split(text):
    """The words of a source."""
    words, at, line = [], 0, 1
    while at < len(text):
        kind, end = special_end(text, WORD.match(text, at))
        kind = 'string' if kind == 'hashes' else kind
        words.append(Word(kind, text[at:end], line))
        line += text.count('\n', at, end)
        at = end
    return words


def after(words, at):
    """The place of the next word of code."""
    at += 1
    while at < len(words) and not words[at].is_code:
        at += 1
    return at


def before(words, at):
    """The place of the word of code before, or -1."""
    at -= 1
    while at >= 0 and not words[at].is_code:
        at -= 1
    return at


def word_at(words, at):
    """The text of the word of code at a place, or nothing outside the source."""
    return words[at].text if 0 <= at < len(words) and words[at].is_code else ''


def close(words, at):
    """The place of the bracket that closes the one at a place."""
    opening, depth = words[at].text, 0
    for place in range(at, len(words)):
        if words[place].kind == 'mark':
            depth += (words[place].text == opening) - (words[place].text == PAIRS[opening])
            if depth == 0:
                return place
    raise Mistake('line %d: %r is not closed' % (words[at].line, opening))


def find(words, text, at=0):
    """The place of the next word of code with this text, from a place on."""
    for place in range(at, len(words)):
        if words[place].text == text and words[place].is_code:
            return place
    raise Mistake('there is no %r' % text)


def drop(words, first, last):
    """Makes the words from one place to another gone, the last included."""
    for word in words[first:last + 1]:
        word.drop()


def drop_told(words, at):
    """Drops the comments on the lines above a place, which are about what is there."""
    place = at - 1
    while place > 0 and words[place].kind == 'space' and words[place].text.count('\n') == 1:
        told, lead = words[place - 1], words[place - 2] if place > 1 else Word('space', '\n')
        if told.kind != 'comment' or told.text.startswith('//!') or '\n' not in lead.text:
            return
        told.drop()
        place -= 2


def joined(first, second, left, right):
    """The white space between two words, of which others are gone from between them."""
    if not first or not second:
        return first if not right else ''
    if '\n' not in first + second:
        return ' '
    if right == '{':
        return ' '
    lines = max(first.count('\n'), second.count('\n'))
    if left in ('{', '(', '[') or right in ('}', ')', ']'):
        lines = 1
    return '\n' * lines + second.rpartition('\n')[2]


def text_of(words):
    """The text of the words that are not gone."""
    out, at = [], 0
    while at < len(words):
        end = at
        while end < len(words) and words[end].kind in ('space', 'gone'):
            end += 1
        run = words[at:end]
        if any(word.kind == 'gone' for word in run):
            first = run[0].text if run[0].kind == 'space' else ''
            second = run[-1].text if run[-1].kind == 'space' else ''
            right = words[end].text if end < len(words) else ''
            out.append(joined(first, second, out[-1] if out else '', right))
        else:
            out.extend(word.text for word in run)
        if end < len(words):
            out.append(words[end].text)
        at = end + 1
    return ''.join(out).strip('\n') + '\n'
