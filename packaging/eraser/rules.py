"""The rules that make ordinary Rust of the words of a Rattle source. README.md tells what each is for.

A rule takes the words and what is known of the file, and changes the words in place. What no rule names stays.
"""
import re
from typing import NamedTuple

from words import Mistake, Word, after, before, close, drop, drop_told, find, text_of, word_at

ROOM = 'crate::proved::'
SHIM = 'crate::rt'
PRELUDE = 'use crate::rt::prelude::*;'
CHECKERS = {'tactic', 'cycle'}
GONE = {'Model'}
HIDDEN = ['# use patricia::workbench::*;', '# fn main() -> Result<(), Fail> {'], ['# Ok(())', '# }']


class Source(NamedTuple):
    """A source: its crate and its path below `crates` without `src`, all crates, and the lists of exceptions.py that
    are about it."""
    crate: str
    name: str
    crates: tuple
    unbounded: tuple = ()
    visible: tuple = ()


def ghosts(words, source):
    """Rules 1 to 3: ghost imports, ghost members and fields, and clauses."""
    for at, word in enumerate(words):
        if word.kind == 'ghost':
            drop_told(words, at)
        if word.kind in ('ghost', 'clause'):
            word.drop()


def attributes(words):
    """The places of the first word, the name and the last word of each attribute, and whether it is an inner one."""
    for at, word in enumerate(words):
        if word.text != '#' or word.kind != 'mark':
            continue
        bracket = after(words, at)
        is_inner = word_at(words, bracket) == '!'
        if is_inner:
            bracket = after(words, bracket)
        if word_at(words, bracket) == '[':
            yield at, after(words, bracket), close(words, bracket), is_inner


def checkers(words, source):
    """Rule 4: attributes of the checker."""
    for first, name, last, _ in list(attributes(words)):
        if words[name].text in CHECKERS:
            drop(words, first, last)


def drop_from_list(words, at):
    """Makes a name of a list gone, and the comma behind it, or else the one before it."""
    comma = after(words, at)
    if word_at(words, comma) != ',':
        comma = before(words, at)
    words[at].drop()
    if word_at(words, comma) == ',':
        words[comma].drop()


def derives(words, source):
    """Rules 5 and 6: `Drop` is derived without a word, and what thiserror derives is written out."""
    errors = []
    for first, name, last, _ in list(attributes(words)):
        if words[name].text != 'derive':
            continue
        names = [at for at in range(name + 1, last) if words[at].kind == 'name']
        gone = [at for at in names if words[at].text in ('Drop', 'Error')]
        if any(words[at].text == 'Error' for at in gone):
            errors.append(error_at(words, last + 1))
        if len(gone) == len(names):
            drop(words, first, last)
        for at in gone:
            drop_from_list(words, at)
    for at, impls_of_it in reversed(errors):
        words.insert(at, Word('written', impls_of_it))


def error_at(words, at):
    """The place behind a type, and what thiserror derives for it. Makes its attributes gone."""
    kind = next(place for place in range(at, len(words)) if words[place].text in ('struct', 'enum'))
    name = words[after(words, kind)].text
    opening = after(words, after(words, kind))
    generics = ''
    if words[opening].text == '<':
        end = close(words, opening)
        generics = text_of(words[opening + 1:end]).strip()
        opening = after(words, end)
    end = close(words, opening)
    texts = error_texts(words, at, end)
    arms = '\n'.join('            ' + arm_of(name, *case) for case in variants(words, opening, end, texts))
    body = '        f.write_str(%s)' % texts[0][1] if words[kind].text == 'struct' else (
        '        match self {\n%s\n        }' % arms)
    for first, last in [(first, last) for first, _, last in error_places(words, at, end)]:
        drop(words, first, last)
    return end + 1, written(name, generics, body)


def error_places(words, at, end):
    """The first word, the text and the last word of each attribute `error` between two places."""
    return [(first, after(words, after(words, name)), last) for first, name, last, _ in attributes(words)
            if at <= first < end and words[name].text == 'error']


def error_texts(words, at, end):
    """The texts of errors, each with the place of what it is about."""
    return [(after(words, last), words[text].text) for _, text, last in error_places(words, at, end)]


def variants(words, opening, end, texts):
    """The name of each variant, its text, and whether it has a number."""
    for place, text in texts:
        if opening < place < end:
            yield words[place].text, text, word_at(words, after(words, place)) == '('


def arm_of(name, variant, text, has_number):
    """The arm that writes a variant of an error."""
    if has_number:
        return '%s::%s(at) => write!(f, %s, at),' % (name, variant, text)
    return '%s::%s => f.write_str(%s),' % (name, variant, text)


def written(name, generics, body):
    """The two impls of an error, whose text is written by some code."""
    whole = '%s<%s>' % (name, generics) if generics else name
    plain, debug = ('<%s>' % generics, '<%s: core::fmt::Debug>' % generics) if generics else ('', '')
    return ('\n\nimpl%s core::fmt::Display for %s {\n'
            "    fn fmt(&self, f: &mut core::fmt::Formatter<'_>) -> core::fmt::Result {\n%s\n    }\n}\n\n"
            'impl%s core::error::Error for %s {}') % (plain, whole, body, debug, whole)


def impls(words):
    """The places of `impl`, of the name of its trait, and of its braces, of each impl of a trait."""
    for at, word in enumerate(words):
        if word.text == 'impl' and word.is_code and word_at(words, before(words, at)) in ('', '}', ';', ']'):
            opening = find(words, '{', at)
            binder = next((place for place in range(at, opening) if words[place].text == 'for'), None)
            if binder is not None:
                yield at, before(words, binder), opening, close(words, opening)


def models(words, source):
    """Rule 7: an `impl Model`, which has ghost members alone."""
    for at, trait, opening, last in list(impls(words)):
        if words[trait].text == 'Model':
            if any(word.is_code for word in words[opening + 1:last]):
                raise Mistake('line %d: an impl of Model has more than ghost members' % words[at].line)
            drop_told(words, at)
            drop(words, at, last)


def clones(words, source):
    """Rule 8: the `Clone` of a type that is `Copy` is the one of Rust, which is not refused."""
    for _, trait, opening, last in list(impls(words)):
        body = ''.join(word.text for word in words[opening:last + 1] if word.is_code)
        if words[trait].text != 'Clone':
            continue
        if body != '{fnclone(&self)->Result<Self,AllocError>{Ok(*self)}}':
            raise Mistake('line %d: a Clone that is no copy' % words[trait].line)
        words[trait].text = 'core::clone::Clone'
        result = find(words, 'Result', opening)
        drop(words, result, find(words, '>', result))
        words[result].kind, words[result].text = 'name', 'Self'
        value = find(words, 'Ok', result)
        drop(words, value, after(words, value))
        words[find(words, ')', value)].drop()


def drop_bounds(words, source):
    """Rule 9: the bound `Drop`. A trait below it has a size."""
    for at in [at for at, word in enumerate(words) if word.text == 'Drop' and word.kind == 'name']:
        word, lead, behind = words[at], before(words, at), after(words, at)
        if word_at(words, lead) not in (':', '+'):
            continue
        if word_at(words, behind) == '+':
            words[behind].drop()
            word.drop()
        elif word_at(words, behind) == '{':
            word.text = 'Sized'
        else:
            words[lead].drop()
            word.drop()


def paths(words, source):
    """Rules 10 and 11: a crate is a module, and the kit's `std` is the shim."""
    for at, word in enumerate(words):
        if word.kind != 'name' or word_at(words, after(words, at)) != '::':
            continue
        if word_at(words, before(words, at)) == '::':
            continue
        if word.text == 'crate':
            word.text = ROOM + source.crate
        elif word.text in source.crates:
            word.text = ROOM + word.text
        elif word.text == 'std':
            word.text = SHIM


def imports(words, source):
    """Rule 12: names of which nothing is left go from imports."""
    for at, word in enumerate(words):
        if word.text != 'use' or not word.is_code:
            continue
        end = find(words, ';', at)
        names = [place for place in range(at + 1, end) if words[place].kind == 'name']
        gone = [place for place in names if words[place].text in GONE]
        if words[names[0]].text == 'thiserror' or gone and word_at(words, end - 1) != '}':
            drop(words, at, end)
            continue
        for place in gone:
            drop_from_list(words, place)


def writers(words, source):
    """Rule 13: the writer of a formatter is no type parameter."""
    for at in [at for at, word in enumerate(words) if word.text == 'fn' and word.is_code]:
        opening = after(words, after(words, at))
        if word_at(words, opening) != '<':
            continue
        inside = [place for place in range(opening, close(words, opening) + 1) if words[place].is_code]
        if [words[place].text for place in inside] == ['<', 'W', ':', 'Write', '>']:
            drop(words, inside[0], inside[-1])
            writer = after(words, after(words, find(words, 'Formatter', inside[-1])))
            words[writer].text = "'_"


def unbounded(words, source):
    """Rule 16: the type parameters of some structs lose their bounds, which no field needs."""
    for name in source.unbounded:
        opening = after(words, after(words, item_at(words, source, 'struct', name)))
        if words[opening].text != '<':
            raise Mistake('%s: %s has no type parameters' % (source.name, name))
        end, depth, bound = close(words, opening), 0, None
        for place in range(opening + 1, end + 1):
            text = words[place].text if words[place].is_code else ''
            if depth == 0 and text == ':' and words[before(words, place)].kind == 'name':
                bound = place
            if depth == 0 and text in (',', '>') and bound is not None:
                drop(words, bound, place - 1)
                bound = None
            depth += (text in ('<', '(')) - (text in ('>', ')'))


def item_at(words, source, kind, name):
    """The place of the word that begins an item, such as `struct`, by the item's name."""
    for at, word in enumerate(words):
        if word.text == kind and word.is_code and word_at(words, after(words, at)) == name:
            return at
    raise Mistake('%s: there is no %s %s, which a list of exceptions.py names' % (source.name, kind, name))


def field_at(words, source, struct, field):
    """The place of a field's name in a struct."""
    opening = find(words, '{', item_at(words, source, 'struct', struct))
    for at in range(opening, close(words, opening)):
        if words[at].text == field and word_at(words, after(words, at)) == ':':
            return at
    raise Mistake('%s: there is no field %s of %s, which VISIBLE names' % (source.name, field, struct))


def visible(words, source):
    """Rule 17: some items and fields are visible in the whole package."""
    for item in source.visible:
        struct, is_field, field = item.partition('.')
        at = field_at(words, source, struct, field) if is_field else item_at(words, source, *item.split(' '))
        if word_at(words, before(words, at)) in ('pub', 'pub(crate)', ')'):
            raise Mistake('%s: %s is visible, and VISIBLE names it' % (source.name, item))
        words[at:at] = [Word('name', 'pub(crate)'), Word('space', ' ')]


def prelude(words, source):
    """Rule 14: each module imports the shim's prelude, behind its own comment and its inner attributes."""
    at = 0
    inner = {first: last for first, _, last, is_inner in attributes(words) if is_inner}
    while at in inner or not words[at].is_code and not is_outer_comment(words[at]):
        at = inner.get(at, at) + 1
    words[at:at] = [Word('name', PRELUDE), Word('space', '\n' if words[at].text in ('use', 'pub') else '\n\n')]


def is_outer_comment(word):
    return word.kind == 'comment' and not word.text.startswith('//!')


def examples(words, source):
    """Rule 15: an example in a comment has a `main` that may fail around it, and `rt` is no handle there. It is marked
    `text`: only the workbench, in which the proved code is public, runs it as a test."""
    is_inside = False
    for at, word in enumerate(words):
        told = re.match(r'(//[/!])(?!/) ?(.*)', word.text) if word.kind == 'comment' else None
        if not told:
            continue
        indentation = words[at - 1].text.rpartition('\n')[2] if at else ''
        opening, closing = ['\n'.join('%s%s %s' % (indentation, told[1], line) for line in lines) for lines in HIDDEN]
        if told[2].startswith('```'):
            word.text = closing[len(indentation):] + '\n' + indentation + word.text if is_inside else (
                word.text + 'text\n' + opening)
            is_inside = not is_inside
        elif is_inside and re.match(r'\s*(requires|ensures)\b', told[2]):
            word.drop()
        elif is_inside:
            word.text = re.sub(r'(assert\w*!\()rt;(?: |$)', r'\1', word.text).replace('rt.alloc()', 'Global')
    if is_inside:
        raise Mistake('%s: an example has no end' % source.name)


RULES = [ghosts, checkers, derives, models, clones, drop_bounds, imports, paths, writers, unbounded, visible, prelude,
         examples]
