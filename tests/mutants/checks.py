"""What the prover says of a crate with other texts in place of its own.

No command of rt says it over the libraries that an rt ci has built. Those hold statements alone and have no stamp, and
without a stamp each other command of rt builds, and so proves, them all anew. So the prover is called here, and here
alone, by words that 'rattle check --help' explains.
"""
import os
import re
import subprocess
import tempfile
from typing import NamedTuple

from tests import crates as listing

NO_FUNCTION = '-'
SEARCHED = 'it is not proved that'
SHOWN_FALSE = 'allow values at which this goal is false'
NO_PROOF = '`search`: no proof of'
GONE = re.compile(r'has no field|\(nearest: |is not in scope|has no `|was not admitted|is no name'
                  r'|operand is missing|expected the end|cannot continue')
# the difference between a proof and its goal, and a name of the code that may be on either side
DIFFERENCE = re.compile(r'differ (?:only )?where one has `([^`]*)` ?(?:\(expected\))?(?:,? right after `[^`]*`)?,?'
                        r' and the other has `([^`]*)`')
NAME_OF_CODE = re.compile(r'c\.[\w.-]+')
NOTE = re.compile(r'note: (?:\./)?(\S+?:\d+):\d+: (.*)')
ERROR = re.compile(r'(?:\./)?(\S+?:\d+):\d+: error: (.*)')
VERDICT = re.compile(r'fn \w+::(\S+): (.*)')
CALLEE = re.compile(r'it calls `|it waits for the proof of')
NOT_TRIED = re.compile(r'note: `search` has not tried the goals of (.*), which wait')
ENDED = re.compile(r'only=(\d+) proved=(\d+)|logic=(proved|not-proved)\b')
NAMED = re.compile(r'.*?\(`([^`]*)`\)|`([^`]*)`')


class Failure(NamedTuple):
    """A goal that fails: its function, if it is not that of a lemma, its name, and where.

    The prover may show it false, by values. Else a search or a proof file has no proof of it, as they may have none of
    a goal that is true. An error at a name that is gone, or that stands where the goal has another name of the code,
    says nothing of the goal.
    """
    function: str
    name: str
    place: str
    is_false: bool
    is_by_name: bool

    def __str__(self):
        return '%s of %s at %s' % (self.name, self.function, self.place)


class Check:
    """What a check said."""

    def __init__(self, said):
        # a long message is broken into lines, of which all but the first begin with two spaces
        self.lines = re.sub('\n {2}(?! )', ' ', said.rstrip()).split('\n')
        self.ended = ENDED.match(self.lines[-1])
        asked, proved, whole = self.ended.groups() if self.ended else (None, None, None)
        self.is_refused = asked != proved or whole == 'not-proved'
        self.failures = list(self.failing())
        untried = [y for x in map(NOT_TRIED.match, self.lines) if x for y in re.findall(r'`\w+::([^`]*)`', x[1])]
        # the functions of which a failure may be due to a callee that is not proved
        self.waiting = {*untried, *(x[1] for x in map(VERDICT.match, self.lines) if x and CALLEE.search(x[2]))}

    def failing(self):
        """The goals that fail. A note stands above the verdict on its function, and an error in a proof file lies in
        the folder of its function."""
        notes = []
        for line in self.lines:
            note, error, verdict = (x.match(line) for x in (NOTE, ERROR, VERDICT))
            if note and SEARCHED in note[2]:
                notes.append(note)
            elif error:
                yield failure(function_of(os.path.dirname(error[1])), error, False)
            elif verdict:
                yield from [failure(verdict[1], x, SHOWN_FALSE in x[2]) for x in notes]
                notes = []

    def of(self, goal):
        """The failures of a goal, or of the lemma for it."""
        owners = goal.function, NO_FUNCTION
        return [x for x in self.failures if x.function in owners and x.name == goal.name]

    def meant(self, goal):
        """Those that tell that it fails by its meaning. What a proof says that names something else tells nothing."""
        found = self.of(goal)
        is_by_name = any(x.is_by_name for x in found)
        return [x for x in found if not is_by_name or not x.place.startswith('proofs/')]

    def text(self):
        """What it refused first, and its last line."""
        refused = [x for x in self.lines if ERROR.match(x) or x.startswith('error')]
        return '; '.join([x[:160] for x in [*refused[:2], self.lines[-1]]])


def failure(function, said, is_false):
    """The failure of which a message tells. It names the goal in brackets, or else first."""
    place, text = said.groups()
    name = NAMED.match(text)
    return Failure(function, (name[1] or name[2]) if name else '?', place, is_false, is_by_name(text))


def is_by_name(text):
    """Whether a message says of a goal only that its proof names something else."""
    if NO_PROOF in text:
        return False
    differences = DIFFERENCE.findall(text)
    named = [all(map(NAME_OF_CODE.fullmatch, x)) for x in differences]
    return bool(GONE.search(text)) or bool(named) and all(named)


def function_of(folder):
    """The function whose proof stands in a folder. That of a cycle of calls begins with '+'."""
    names = [x.removeprefix('+') for x in folder.split('/')]
    return '::'.join(names[1:]) or NO_FUNCTION


class Prover:
    """The prover, over the libraries in a folder's crates/*/out and those of the toolchain."""

    def __init__(self, crates, folder):
        self.crates = crates
        self.folder = folder
        self.kit = listing.kit()

    def library(self, name):
        """Where a library lies as it was built."""
        if name in self.crates:
            return os.path.join(self.folder, 'crates', name, 'out', 'rlib', name + '.rlib')
        return '%s/rlibs/%s.rlib' % (self.kit, name)

    def libraries(self, crate):
        """Where the repository's libraries lie on which a crate stands."""
        return [self.library(x) for x in listing.below(self.crates, crate.name)]

    def words(self, sources):
        """What it is told of a crate."""
        crate = sources.crate
        words = ['--crate-name', crate.name, sources.root()]
        for name in ['std', *crate.uses]:
            words += ['--extern', '%s=%s' % (name, self.library(name))]
        for there in [self.kit + '/rlibs', *map(os.path.dirname, self.libraries(crate))]:
            words += ['-L', 'dependency=' + there]
        words += ['--crate-type', 'staticlib'] * crate.is_static
        words += ['--antt-project', self.kit + '/rattle/logic/antt-project.json']
        return [*words, '--logic-built', self.kit + '/logic_built', '--jobs', '1']

    def run(self, verb, sources, texts, *more):
        """What it says of a crate with these texts in place of its own."""
        with tempfile.TemporaryDirectory(prefix='must-fail-') as room:
            for path, text in {**sources.texts, **texts}.items():
                os.makedirs(os.path.dirname(os.path.join(room, path)), exist_ok=True)
                with open(os.path.join(room, path), 'w', encoding='utf-8') as file:
                    file.write(text)
            words = [self.kit + '/bin/rattle', verb, *self.words(sources), *more]
            ran = subprocess.run(words, cwd=room, stdin=subprocess.DEVNULL, check=False, stdout=subprocess.PIPE,
                                 stderr=subprocess.STDOUT, encoding='utf-8', errors='replace')
        return ran.stdout

    def check(self, sources, texts, work, functions=()):
        """A check of these functions, or of all, over what earlier ones left in a folder."""
        only = [x for function in sorted(functions) for x in ('--only', function)]
        return Check(self.run('check', sources, texts, '--incremental', work, *only))
