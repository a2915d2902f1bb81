"""Tries the edits of a crate, and says what each came to."""
import os
import shutil
from concurrent.futures import FIRST_COMPLETED, ThreadPoolExecutor, wait
from typing import NamedTuple

from tests import crates as listing
from tests.mutants.edits import Line, packs

BORROWED_TWICE = 'error[borrow-e0499]'
REFUTED, READ, REFUSED = 'refuted', 'read', 'refused'


class Told(NamedTuple):
    """What an edit came to: one of the words above, or none if it is no good."""
    crate: str
    line: str
    result: str


class Work:
    """What is tried of a crate."""

    def __init__(self, sources, edits, prover, room):
        self.sources = sources
        self.edits = edits
        self.prover = prover
        self.room = os.path.join(room, sources.crate.name)
        self.copies = 0

    def size(self):
        """With which the time of a check grows."""
        return sum(map(len, self.sources.texts.values()))

    def begin(self):
        """Tries the first pack. Returns what is told, and calls of the same kind."""
        missing = [x for x in self.prover.libraries(self.sources.crate) if not os.path.isdir(x)]
        why = 'THERE IS NO ' + missing[0] if missing else 'DOES NOT APPLY'
        lost = [x for x in self.edits if missing or not x.texts(self.sources, {})]
        made = packs([x for x in self.edits if x not in lost], self.sources)
        told, calls = [self.say(x, None, why) for x in lost], []
        if made:
            os.makedirs(self.room + '/first', exist_ok=True)
            first, calls = self.tried(made[0], self.room + '/first')
            told += first
        return told, [*map(self.call, made[1:]), *calls]

    def call(self, pack):
        """A call that tries a pack. It begins with what the first one left, so that no function is proved again which
        those of the pack call."""
        self.copies += 1
        work = '%s/%d' % (self.room, self.copies)

        def tries():
            try:
                return self.tried(pack, linked(self.room + '/first', work))
            finally:
                shutil.rmtree(work)
        return tries

    def tried(self, pack, work):
        """Tries a pack. An edit whose goal does not fail, or fails where a callee is not proved, is tried anew with
        fewer others, and at last alone."""
        functions = {x.goal.function for x in pack.edits if not isinstance(x, Line) and x.goal}
        check = self.prover.check(self.sources, pack.texts, work, functions)
        told, again = [], []
        for edit in pack.edits:
            result, line = judged(edit, check)
            if len(pack.edits) == 1 or result and edit.goal.function not in check.waiting:
                told.append(self.say(edit, result, line))
            else:
                again.append(edit)
        half = len(again) // 2 if len(again) == len(pack.edits) else 0
        return told, [self.call(x) for part in (again[:half], again[half:]) for x in packs(part, self.sources)]

    def say(self, edit, result, line):
        """Tells what an edit came to."""
        crate = self.sources.crate.name
        line = 'must-fail %s/%s: %s' % (crate, edit.name, '%s: %s' % (result, line) if result else line)
        print(line, flush=True)
        return Told(crate, line, result)


def judged(edit, check):
    """What an edit came to by what a check said, or None, and the goals that show it, or why it is no good."""
    if isinstance(edit, Line):
        errors = [x for x in check.lines if edit.file in x and BORROWED_TWICE in x]
        return (REFUSED, errors[0]) if errors else (None, 'NOT REFUSED: ' + check.text())
    if not edit.goal:
        meant = [x for x in check.failures if x.name != '?' and not x.is_by_name]
        return None, 'NAMES NO GOAL: one of these may be its goal: ' + '; '.join(map(str, meant))
    failures = check.meant(edit.goal)
    line = '; '.join(map(str, failures))
    if not failures or not check.ended:
        return None, missed(check, edit.goal)
    if any(x.is_false for x in failures) and not edit.loops():
        return REFUTED, line
    return (READ, line) if 'read' in edit.marks else (None, 'TO READ, not shown false: ' + line)


def missed(check, goal):
    """Why an edit is no good whose goal does not fail by its meaning."""
    if not check.ended:
        return 'NOT TRIED: ' + check.text()
    if not check.is_refused:
        return 'NOT REFUSED: ' + check.text()
    if check.of(goal):
        return 'REFUSED BY NAMES ALONE: it says little of the contract: %s' % str(check.of(goal)[0])
    told = '; '.join(map(str, check.failures[:3])) or check.text()
    return 'THE GOAL %s DOES NOT FAIL, but: %s' % (str(goal), told)


def linked(folder, to):
    """Copies what checks left for later ones, and returns where to. What was proved is linked: a check replaces such a
    file, and changes none."""
    def copy(one, other):
        try:
            return os.link(one, other) if one.endswith('.oantt') else shutil.copy2(one, other)
        except OSError:
            return shutil.copy2(one, other)
    return shutil.copytree(folder, to, copy_function=copy)


def done(works):
    """Does all, the largest crates first, and returns what is told."""
    told = []
    with ThreadPoolExecutor(listing.processors()) as pool:
        waiting = {pool.submit(x.begin) for x in sorted(works, key=Work.size, reverse=True)}
        while waiting:
            ended, waiting = wait(waiting, return_when=FIRST_COMPLETED)
            for lines, calls in [x.result() for x in ended]:
                told += lines
                waiting |= {pool.submit(x) for x in calls}
    return told
