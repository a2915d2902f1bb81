"""The check's own scanner: it cuts Rattle and Rust alike into tokens, contracts among them.

A sign is one token. Of two signs of operators that touch the second one is glued, so that `&&` is not `& &`. It shares
no code with the words of the eraser.
"""
from typing import NamedTuple

OPERATORS = set('=<>&|+-*/%^!.:')
RAW = 'r"', 'r#', 'br"', 'br#', 'cr"', 'cr#'


class Token(NamedTuple):
    """A token: its text, whether it is code, a line of documentation or another comment, and whether it is glued."""
    text: str
    kind: str
    is_glued: bool
    line: int

    @property
    def content(self):
        """What has to be the same in two tokens that are equal."""
        return self.text, self.kind == 'doc', self.is_glued


class Unreadable(Exception):
    """A text that is no list of tokens."""


def nested_end(text, at, opening, closing):
    """The end of a comment with two marks, which may have others inside."""
    depth, place = 0, at
    while place < len(text):
        if text.startswith(opening, place):
            depth, place = depth + 1, place + 2
        elif text.startswith(closing, place):
            depth, place = depth - 1, place + 2
            if depth == 0:
                return place
        else:
            place += 1
    raise Unreadable('the comment at %r has no end' % text[at:at + 20])


def quoted_end(text, at, quote):
    """The end of what begins with a quotation mark, in which a backslash keeps the next sign from ending it."""
    place = at + 1
    while place < len(text) and text[place] != quote:
        place += 2 if text[place] == '\\' else 1
    if place >= len(text):
        raise Unreadable('the quotation at %r has no end' % text[at:at + 20])
    return place + 1


def raw_end(text, at):
    """The end of a raw string, or None where none begins."""
    start = text.index('r', at) + 1
    quote = start
    while text[quote:quote + 1] == '#':
        quote += 1
    if text[quote:quote + 1] != '"':
        return None
    closing = '"' + '#' * (quote - start)
    return text.index(closing, quote + 1) + len(closing)


def apostrophe_end(text, at):
    """The end of a character, or of the name of a lifetime."""
    following = text[at + 1:at + 3]
    if following[:1] != '\\' and following[1:] != "'" and (following[:1].isalpha() or following[:1] == '_'):
        return word_end(text, at + 1)
    return quoted_end(text, at, "'")


def word_end(text, at):
    """The end of a name or a number. In antt a name may have apostrophes in it."""
    place = at
    while place < len(text) and (text[place].isalnum() or text[place] == '_'):
        place += 1
    if text[at].isdigit() and text[place:place + 1] == '.' and text[place + 1:place + 2].isdigit():
        return word_end(text, place + 1)
    return place


def is_note(text, at):
    """Whether a comment of antt begins here."""
    return text.startswith('--', at) and text[at + 2:at + 3] in (' ', '-', '\n') and (
        at == 0 or text[at - 1].isspace() or text[at - 1] in '(){};')


def comment(text, at):
    """The kind and the end of a comment, or None where none begins."""
    if text.startswith('//', at) or is_note(text, at):
        end = text.find('\n', at)
        is_doc = text.startswith('//!', at) or text.startswith('///', at) and not text.startswith('////', at)
        return 'doc' if is_doc else 'note', end if end >= 0 else len(text)
    if text.startswith('/*', at):
        return 'note', nested_end(text, at, '/*', '*/')
    if text.startswith('{-', at):
        return 'note', nested_end(text, at, '{-', '-}')
    return None


def code_end(text, at):
    """The end of a token of code."""
    if text[at] == '"':
        return quoted_end(text, at, '"')
    if text[at] == "'":
        return apostrophe_end(text, at)
    if not text[at].isalnum() and text[at] != '_':
        return at + 1
    if text.startswith(RAW, at) and raw_end(text, at):
        return raw_end(text, at)
    if text.startswith(('b"', 'c"', "b'"), at):
        return quoted_end(text, at + 1, text[at + 1])
    end = word_end(text, at)
    while text[end:end + 1] == "'" and not text[at].isdigit():
        end += 1
    return end


def scan(text):
    """The tokens of a text."""
    tokens, at, line, operator = [], 0, 1, -1
    while at < len(text):
        sign = text[at]
        if sign.isspace():
            line += sign == '\n'
            at += 1
            continue
        kind, end = sign in '/-{' and comment(text, at) or ('code', code_end(text, at))
        piece = text[at:end]
        is_operator = kind == 'code' and piece in OPERATORS
        tokens.append(Token(piece.rstrip(), kind, is_operator and operator == at, line))
        operator = end if is_operator else -1
        line += piece.count('\n')
        at = end
    return tokens
