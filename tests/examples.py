#!/usr/bin/env python3
"""Compares the examples in doc comments and on pages with the code that the tests run.

    tests/examples.py            fails where they differ, or where a call has none
    tests/examples.py --write    writes the examples into the comments and the pages

An example is code between two comments, '// example: MODULE NAME ..' and '// end'. It stands in the doc comment of each
function of these names, in a file of CALLS or of a folder of CALLS, as the last section. Each public function of these
files has one, but for HAS_NONE; so has each function of the traits of keys, and the library at its head. Where the
tests call `done`, `same!`, `alike!`, `holds!`, `map_of` and `set_of`, which are quick to prove, an example has `?`,
`assert_eq!`, `assert!` and `from_iter` of an array.

On a page of PAGES it stands indented behind a line '<!-- example: MODULE NAME -->' and an empty one.
"""
import os
import re
import sys
import textwrap

ROOT = os.path.dirname(os.path.dirname(os.path.abspath(__file__)))
CRATES = os.path.join(ROOT, 'crates')
PAGES = 'README.md', 'docs/CALLS.md'
EXAMPLES = 'test_examples/src/tests', 'prefixes/src/tests.rt', 'example_map/src/main.rt'
KEYS, WALKS, TREE, PREFIXES = 'patricia_keys/src/', 'patricia_walks/src/', 'patricia_tree/src/', 'prefixes_core/src/'
CALLS = {
    'map': [TREE + 'map.rt', TREE + 'map'],
    'set': [TREE + 'set.rt', TREE + 'set'],
    'cursor': [TREE + 'entries.rt'],
    'prefix_cursor': [TREE + 'prefixes.rt'],
    'values': [TREE + 'values.rt'],
    'read_cursor': [WALKS + 'walk/reading.rt'],
    'prefix_read_cursor': [WALKS + 'under/reading.rt'],
    'range_read_cursor': [WALKS + 'range.rt'],
    'near_cursor': [WALKS + 'near.rt'],
    'router': [TREE + 'router.rt'],
    'keys': [KEYS + 'keys.rt'],
    'units': [KEYS + 'keys/units.rt'],
    'json': ['patricia_json/src/json.rt'],
    'distance': ['patricia_distance/src/near.rt'],
    'prefixes': [PREFIXES + '%s.rt' % name for name in (
        'combining', 'completing', 'cutting', 'dotted', 'drawing', 'measuring', 'nearing', 'networks', 'packing')],
    'block_list': [PREFIXES + 'blocking.rt'],
    'payload': [PREFIXES + 'value.rt'],
}
# what does nothing at run time, and what makes a cursor of a walk that no user has
HAS_NONE = {'map keys_are_valid', 'set keys_are_valid', 'prefixes packed_is_one_list',
            *(module + ' new' for module in CALLS if module.endswith('_cursor'))}
# calls of the tests, and what an example has for them
WRITTEN = {
    r'\bdone\(\s*&rt,\s*': '%s?',
    r'\bsame!\(rt;\s*': 'assert_eq!(rt; %s)',
    r'\balike!\(rt;\s*': 'assert_eq!(rt; %s)',
    r'\bholds!\(rt;\s*': 'assert!(rt; %s)',
    r'\bmap_of\(\s*&rt,\s*rt\.alloc\(\),\s*&': 'StringPatriciaMap::from_iter(rt.alloc(), %s)?',
    r'\bset_of\(\s*&rt,\s*rt\.alloc\(\),\s*&': 'StringPatriciaSet::from_iter(rt.alloc(), %s)?',
}
LITERAL = re.compile(r'"(?:\\.|[^"\\])*"|\'(?:\\[^\']+|[^\'\\])\'')
REGION = re.compile(r'^ *// example: (\w+)((?: \w+)+)\n(.*?)^ *// end$', re.M | re.S)
SHOWN = re.compile(r'^(<!-- example: (.*) -->\n\n)((?:(?: {4}.*)?\n)*?)(?=^\S|\Z)', re.M)
# a public function; where the traits of keys stand, one of a trait
CALL, TRAIT_CALL = re.compile(r'^( *)pub fn (\w+)', re.M), re.compile(r'^( {4})fn (\w+)', re.M)
FENCED = re.compile(r'^//! ```\n((?:^//!.*\n)*?)^//! ```$', re.M)
SECTION = '///\n/// # Examples\n///\n/// ```\n'


def read(path):
    with open(os.path.join(CRATES, path), encoding='utf-8') as file:
        return file.read()


def files(path):
    """A file, or those of a folder and the folders there."""
    if path.endswith('.rt'):
        return [path]
    return [file for x in sorted(os.listdir(os.path.join(CRATES, path))) for file in files('%s/%s' % (path, x))]


def inside(text, at):
    """What stands from a place on up to the bracket that closes there, and the place behind that."""
    end, depth = at, 0
    while depth >= 0:
        literal = LITERAL.match(text, end)
        depth += 0 if literal else (text[end] in '([{') - (text[end] in ')]}')
        end = literal.end() if literal else end + 1
    return text[at:end - 1].strip().removesuffix(','), end


def as_written(code):
    """The code with `?` and std's assertions in place of what the tests call for them."""
    for called, written in WRITTEN.items():
        while found := re.search(called, code):
            text, end = inside(code, found.end())
            if '\n' in found[0]:
                text = text.replace('\n    ', '\n')
            code = code[:found.start()] + written % text + code[end:]
    return code


def words(section):
    """The words and signs of a section: lines may break elsewhere, with a comma before the bracket that closes."""
    code = re.sub('^ *//[/!]', '', section or '', flags=re.M)
    found = re.findall(LITERAL.pattern + r'|\w+|[^\w\s]', code)
    return [x for x, behind in zip(found, [*found[1:], '']) if x != ',' or behind not in (')', ']', '}')]


def comment(code):
    """The section of a doc comment that has this code."""
    lines = textwrap.dedent(as_written(code)).rstrip().split('\n')
    return SECTION + ''.join(('/// ' + x).rstrip() + '\n' for x in [*lines, '```'])


def of_page(path, codes, writes):
    """What is wrong with the examples of a page, which are written anew if it is asked."""
    wrong = []

    def shown(found):
        head, name, has = found.groups()
        code = as_written(textwrap.dedent(codes[name])) if name in codes else ''
        if not code or words(has) != words(code):
            wrong.append('%s: %s %s' % (path, name, 'has another example' if code else 'is no example'))
        return head + textwrap.indent(code.strip('\n'), '    ') + '\n\n' if writes and code else found[0]

    with open(os.path.join(ROOT, path), encoding='utf-8') as file:
        text = file.read()
    made = SHOWN.sub(shown, text)
    if made != text:
        with open(os.path.join(ROOT, path), 'w', encoding='utf-8') as file:
            file.write(made)
    return wrong


def of_calls(module, path, sections, writes):
    """How many calls of a file have examples, and what is wrong with them, which is written anew if it is asked."""
    starts = TRAIT_CALL if module == 'keys' else CALL
    text, calls, wrong = '', 0, []
    for part in re.split('(?=%s)' % starts.pattern.replace('(', '(?:'), read(path), flags=re.M):
        # what stands before a call ends with its comment
        call = starts.match(part)
        name = call and '%s %s' % (module, call[2])
        if call and name not in HAS_NONE:
            calls += 1
            section = sections.get(name)
            section = section and textwrap.indent(section, call[1])
            kept, mark, _ = text.rpartition(textwrap.indent(SECTION, call[1]))
            is_its_own = mark and re.fullmatch('( *///.*\n)*', text[len(kept) + len(mark):])
            has = text[len(kept):] if is_its_own else ''
            if words(has) != words(section):
                wrong.append('%s: %s has %s' % (path, call[2], 'another example' if section else 'none'))
                text = text[:len(text) - len(has)] + section if section else text
        text += part
    if writes:
        with open(os.path.join(CRATES, path), 'w', encoding='utf-8') as file:
            file.write(text)
    return calls, wrong


def of_library(codes):
    """What is wrong with the example at the head of the library."""
    shown = FENCED.search(read(TREE + 'lib.rt'))
    is_right = shown and words(shown[1]) == words(as_written(codes['lib words']))
    return [] if is_right else [TREE + 'lib.rt has another example']


def main():
    writes = sys.argv[1:] == ['--write']
    codes = {'%s %s' % (module, name): code for x in EXAMPLES for path in files(x)
             for module, names, code in REGION.findall(read(path)) for name in names.split()}
    sections = {name: comment(code) for name, code in codes.items()}
    calls, wrong = 0, of_library(codes) + [x for page in PAGES for x in of_page(page, codes, writes)]
    for module, paths in CALLS.items():
        for path in (file for x in paths for file in files(x)):
            count, lacking = of_calls(module, path, sections, writes)
            calls, wrong = calls + count, wrong + lacking
    print(*wrong, '%d calls and %d pages, %d without their example' % (calls, len(PAGES), len(wrong)), sep='\n')
    sys.exit(1 if wrong and not writes else 0)


if __name__ == '__main__':
    main()
