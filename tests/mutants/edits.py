"""The edits of crates/*/must-fail, what they turn, and which of them one check can try.

An edit is a file with lines 'file:', 'old:' and 'new:', as rt reads them, and a line that rt passes over:

    goal: FUNCTION GOAL

It names a function as a check does after 'fn', without the crate's name, and the goal of it that fails with the edit,
or a lemma for it that stands in a file right in proofs/. With the word 'read' after them someone has read why the goal
is false with the edit. Without it the prover has to show so at each run, by values: that it has no proof of a goal may
be so of a right body, too, and so may it be that values break a goal behind a loop that the edit brings in. With the
word 'searched' search tries the goal, since the proof names what the edit replaces: the answer to the goal, the one to
all its clauses, or else those to each of its clauses are taken out of the proof.
"""
import os
import re
from typing import NamedTuple

from tests.mutants.checks import function_of

MOST_IN_ONE = 64
PARTS = 'src', 'specs', 'proofs'
REFUSED = '// refused: '
COMMENT = re.compile('//.*|(?<![^ ])-- .*')
USE = re.compile(r'\buse\s[^;{}]*\{[^}]*\}')
DEFINITION = re.compile(r'^ *(?:abbrev )?(?:pub )?(\w+) : ', re.M)
DEFINES = r'^ *((abbrev|pub) )*%s\b|\bfn %s\b'
ANSWER = r'^pub (?:%s) : .*?(?=^pub |\Z)'
FUNCTION = re.compile(r'^( *)(?:pub(?:\([a-z]+\))? )?(?:extern "C" )?fn (\w+)')
LOOP = re.compile(r'\b(for|while|loop)\b')
# the line at which a body begins where the function's first line does not end with it
BODY = re.compile(r' *(\).*)?\{$')


class Goal(NamedTuple):
    """A goal of a function's proof."""
    function: str
    name: str

    def __str__(self):
        return '%s %s' % self

    def bare(self):
        """The function's name, without what it stands in."""
        return self.function.split('::')[-1]


class Sources:
    """The files of a crate that a check reads, by their paths in its folder."""

    def __init__(self, crate, folder):
        self.crate = crate
        self.folder = folder
        self.texts = {}
        for part in PARTS:
            for at, _, files in os.walk(os.path.join(folder, part)):
                paths = [os.path.join(at, x) for x in files]
                self.texts.update({os.path.relpath(x, folder): read(x) for x in paths})

    def root(self):
        """The file with which the crate begins."""
        return 'src/main.rt' if 'src/main.rt' in self.texts else 'src/lib.rt'

    def edits(self):
        """The edits of its folder must-fail, and its lines of code that a comment 'refused:' holds."""
        there = os.path.join(self.folder, 'must-fail')
        names = sorted(os.listdir(there)) if os.path.isdir(there) else []
        lines = [Line(file, at + 1) for file, text in sorted(self.texts.items()) if file.startswith('src/')
                 for at, line in enumerate(text.split('\n')) if REFUSED in line]
        return [*lines, *(Edit(os.path.join(there, x)) for x in names if x.endswith('.edit'))]

    def function_at(self, file, old):
        """The name of the function of whose code a text is a part, or None."""
        text = self.texts.get(file, '') if file.startswith('src/') else ''
        name = depth = is_code = None
        for line in text[:text.find(old) + len(old)].split('\n'):
            head = FUNCTION.match(line)
            if head:
                depth, name, is_code = *head.groups(), line.endswith('{')
            elif name and BODY.match(line):
                is_code = True
            elif name and line == depth + '}':
                name = None
        return name if is_code else None

    def answers(self, function):
        """The file and the text of the answers to a function's goals."""
        files = [x for x in self.texts if x.endswith('/Answers.antt') and function_of(os.path.dirname(x)) == function]
        return files[0], self.texts[files[0]]

    def word_at(self, file, old):
        """The word of specs/ in whose definition a text stands, or None."""
        text = self.texts.get(file, '')
        words = DEFINITION.findall(text[:text.find(old)]) if file.startswith('specs/') else []
        return words[-1] if words else None

    def namings(self, word, function):
        """How often the texts name a word, but for the lines that define it, and for the proof of this function."""
        own, defined = '/%s/' % function, re.compile(DEFINES % (word, word), re.M)
        texts = [text for path, text in self.texts.items() if own not in path]
        bare = [defined.sub('', USE.sub('', COMMENT.sub('', x))) for x in texts]
        return sum(len(re.findall(r'\b%s\b' % word, x)) for x in bare)


class Edit:
    """A change of lines: the file of each, what is there, and what is put there."""

    def __init__(self, path):
        self.name = os.path.basename(path)
        self.changes, self.goal, self.marks = [], None, []
        file = old = None
        for line in read(path).split('\n'):
            word, _, rest = line.partition(':')
            rest = rest.removeprefix(' ')
            if word == 'file':
                file = rest.strip()
            elif word == 'old':
                old = rest
            elif word == 'new':
                self.changes.append((file, old, rest))
            elif word == 'goal' and len(rest.split()) >= 2:
                function, goal, *self.marks = rest.split()
                self.goal = Goal(function, goal)

    def texts(self, sources, texts):
        """These texts of the sources with the change made, or None where it does not apply."""
        texts = dict(texts)
        for file, old, new in self.changes:
            text = texts[file] if file in texts else sources.texts.get(file, '')
            if not old or text.count(old) != 1:
                return None
            texts[file] = text.replace(old, new)
        if 'searched' in self.marks:
            file, text = sources.answers(self.goal.function)
            names = {self.goal.name, self.goal.name.partition('-clause-')[0]}
            if not re.search(ANSWER % '|'.join(names), text, re.M | re.S):
                names = {self.goal.name + r'-clause-\S+'}
            texts[file] = re.sub(ANSWER % '|'.join(names), '', text, flags=re.M | re.S)
        return texts

    def loops(self):
        """Whether it brings in a loop, of which nothing is known but what an invariant says."""
        return any(LOOP.search(new) for _, _, new in self.changes)

    def is_apart(self, sources):
        """Whether it opens goals of its own function alone. Code of it does, and so does the promise of a function that
        nothing else names, and a definition that this promise alone names."""
        function = self.goal.bare()
        places = [(file, old) for file, old, _ in self.changes]
        if all(sources.function_at(*x) == function for x in places):
            return True
        words = {sources.word_at(*x) for x in places}
        if words == {None}:
            return not any(sources.function_at(*x) for x in places) and sources.namings(function, function) == 0
        return all(x and sources.namings(x, function) == 1 for x in words)


class Line(NamedTuple):
    """A line of code that a comment holds, since it breaks the rules of borrows."""
    file: str
    number: int

    @property
    def name(self):
        return 'line %d of %s' % (self.number, self.file)

    def texts(self, sources, _):
        """The text of its file with it as code."""
        lines = sources.texts[self.file].split('\n')
        lines[self.number - 1] = lines[self.number - 1].replace(REFUSED, '')
        return {self.file: '\n'.join(lines)}


class Pack:
    """Edits that one check tries, of which each opens goals of another function or stands alone, and the texts with all
    of them made."""

    def __init__(self, edit, sources):
        self.edits = [edit]
        self.texts = edit.texts(sources, {})
        is_apart = isinstance(edit, Edit) and edit.goal and edit.is_apart(sources)
        self.functions = {edit.goal.function} if is_apart else set()

    def takes(self, other, sources):
        """Adds the edit of another pack, if it can."""
        edit = other.edits[0]
        both = edit.texts(sources, self.texts) if self.functions and other.functions else None
        if both is None or len(self.edits) == MOST_IN_ONE or self.functions & other.functions:
            return False
        self.edits.append(edit)
        self.texts = both
        self.functions |= other.functions
        return True


def packs(edits, sources):
    """Edits in packs."""
    made = []
    for pack in [Pack(x, sources) for x in edits]:
        if not any(x.takes(pack, sources) for x in made):
            made.append(pack)
    return made


def read(path):
    with open(path, encoding='utf-8') as file:
        return file.read()
