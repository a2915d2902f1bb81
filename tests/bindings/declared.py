"""Compares what patricia.h declares with what patricia_c exports.

Each parameter is brought to one form: a number by its width, a pointer by what it points to. The types of patricia_c
are the measure: `Global` has no bytes, so C passes nothing for it, and a slice is a pointer and a length.
"""
import os
import re
from tests.support import ROOT

# How many functions are exported.
COUNT = 64
EXPORT = re.compile(r'#\[unsafe\(no_mangle\)\]\npub extern "C" fn (\w+)\(([^)]*)\)(?: -> (\w+))?(.*?)^\{$', re.M | re.S)
# a clause that says that a place stays as it is, and the word for the place
SAME = re.compile(r'ensures same(?:_place)? \{ (at|shared)\.new ≡ \1\.old \}')
EXPORTED = {
    'Global': (), 'u64': ('u64',), '&mut u64': ('*u64',), '&mut usize': ('*usize',),
    '&mut MapPlace': ('*map',), '&mut SharedPlace': ('*shared',), '&mut CursorPlace': ('*cursor',),
    '&mut IteratorPlace': ('*iterator',),
    'usize': ('usize',), 'u16': ('u16',), 'u32': ('u32',), '&[usize]': ('*const usize', 'usize'),
    '&[u8]': ('*const u8', 'usize'), '&mut [u8]': ('*u8', 'usize'), '&[u64]': ('*const u64', 'usize'),
    '&mut [u64]': ('*u64', 'usize'), '&mut [usize]': ('*usize', 'usize'),
}
IN_C = {
    'void': None, 'bool': 'bool', 'uint16_t': 'u16', 'uint32_t': 'u32', 'uint64_t': 'u64', 'size_t': 'usize',
    'patricia_map *': '*map', 'const patricia_map *': '*map', 'patricia_shared *': '*shared',
    'const patricia_shared *': '*shared', 'patricia_cursor *': '*cursor', 'patricia_iterator *': '*iterator',
    'uint64_t *': '*u64', 'size_t *': '*usize', 'const size_t *': '*const usize',
    'uint8_t *': '*u8', 'const uint8_t *': '*const u8', 'const uint64_t *': '*const u64',
}


def read(*path):
    with open(os.path.join(ROOT, *path), encoding='utf-8') as file:
        return file.read()


def split(words):
    return [x.strip() for x in ' '.join(words.split()).strip(' ,').split(',') if x.strip()]


def exports():
    """Each function: its name, its parameters, its result and its clauses."""
    for folder, _, names in os.walk(os.path.join(ROOT, 'crates', 'patricia_c', 'src')):
        for name in names:
            yield from EXPORT.findall(read(folder, name))


def exported():
    """What each function takes and returns, by its name."""
    found = {}
    for function, words, result, _ in exports():
        types = [EXPORTED[x.split(': ')[1]] for x in split(words)]
        found[function] = (sum(types, ()), result or None)
    return found


def reads():
    """The functions that leave a map or a handle as it is, by what their contracts say."""
    return {function for function, _, _, clauses in exports() if SAME.search(clauses)}


def const_in_c():
    """The functions of patricia.h that take a `const` map or handle."""
    text = re.sub(r'/\*.*?\*/', '', read('bindings', 'c', 'patricia.h'), flags=re.S)
    return set(re.findall(r'^\w+ (patricia_\w+)\([^)]*\bconst patricia_(?:map|shared) \*[^)]*\);', text, re.M))


def in_c():
    text = re.sub(r'/\*.*?\*/', '', read('bindings', 'c', 'patricia.h'), flags=re.S)
    found = {}
    for result, name, words in re.findall(r'^(\w+) (patricia_\w+)\(([^)]*)\);', text, re.M):
        types = [IN_C[re.sub(r'\w+$', '', x).strip()] for x in split(words)]
        found[name] = (tuple(types), IN_C[result])
    return found


def texts_in_c():
    """The texts of the faults of tree bytes in patricia.h, in the order of their codes."""
    text = read('bindings', 'c', 'patricia.h')
    codes = {name: int(code) for name, code in re.findall(r'^    (PATRICIA_\w+) = (\d+)', text, re.M)}
    said = {codes[name]: told for name, told in re.findall(r'case (PATRICIA_\w+): return "([^"]+)";', text)}
    return [said[code] for code in sorted(said) if code >= codes['PATRICIA_TRUNCATED']]


def texts_of_errors():
    """The texts of DecodeError in the order of its variants, without offsets and without that of `Memory`."""
    text = read('crates', 'patricia_wire', 'src', 'error.rt')
    body = re.search(r'pub enum DecodeError \{(.*?)^\}', text, re.M | re.S)[1]
    return [told.replace(' at {0}', '') for told in re.findall(r'#\[error\("([^"]+)"\)\]', body)[1:]]


def uncalled():
    """The functions of patricia.h, inline ones included, that no program of tests/bindings calls."""
    folder = os.path.join(ROOT, 'tests', 'bindings')
    programs = ''.join(read(folder, name) for name in os.listdir(folder) if name.endswith(('.c', '.h')))
    # ASK of lines.h calls a function of maps and that of handles
    asked = re.findall(r'\bASK\((\w+)', programs)
    called = {*re.findall(r'\bpatricia_\w+', programs), *(head + name for name in asked for head in
                                                          ('patricia_', 'patricia_shared_'))}
    text = re.sub(r'/\*.*?\*/', '', read('bindings', 'c', 'patricia.h'), flags=re.S)
    return sorted({*re.findall(r'^[\w ]*[\w*] \*?(patricia_\w+)\(', text, re.M)} - called)


def faults():
    """What is declared in another way than it is exported."""
    known = exported()
    found = [] if len(known) == COUNT else ['%d functions are exported' % len(known)]
    found += ['%s may be refused, and returns bool' % function for function, _, result, clauses in exports()
              if result == 'bool' and 'ensures refused' in clauses]
    found += ['patricia.h: %s reads alone, and takes no const' % x for x in sorted(reads() - const_in_c())]
    found += ['patricia.h: %s takes a const, and may change it' % x for x in sorted(const_in_c() - reads())]
    found += [] if texts_in_c() == texts_of_errors() else ['patricia.h and DecodeError have other texts of faults']
    declared = in_c()
    found += ['patricia.h: %s is declared as %s, and exported as %s' % (name, declared.get(name), known[name])
              for name in known if declared.get(name) != known[name]]
    found += ['patricia.h: %s is not exported' % name for name in declared if name not in known]
    return found
