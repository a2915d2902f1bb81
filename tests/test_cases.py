"""The cases of `ptree`, also on many keys, against the independent model."""
import os
import shutil
from tests.oracle import make_cases, model
from tests.support import ROOT, Case, each, folder, made, pairs, read, run

WRITTEN = sorted(name[:-3] for name in os.listdir(os.path.join(ROOT, 'tests', 'cases')) if name.endswith('.in'))
RANDOM = {name: (kind, lines) for name, kind, lines in make_cases.random_scripts()}
CASES = [*WRITTEN, *RANDOM]


def case(name):
    """The words, the input, the output, the errors and the status of a case: one of tests/cases, or a random script
    with the answers of the model."""
    if name in RANDOM:
        kind, lines = RANDOM[name]
        return [kind.encode()], lines, model.answer(kind, lines), None, 0
    of = lambda end, otherwise: otherwise if (there := read('tests', 'cases', name + end)) is None else there
    words = of('.args', b'bytes\n').split(b'\n')[:-1]
    return words, of('.in', b''), of('.out', b''), of('.err', None), int(of('.status', b'0'))


class Cases(Case):
    """`ptree` writes of each case what tests/cases has of it, or the model answers."""

    @each(*pairs(CASES))
    def case(self, name, build):
        words, data, output, errors, status = case(name)
        ran = run([self.program('ptree', build), *words], data)
        self.assert_ends(ran, output, ran.stderr if errors is None else errors, status)


class Large(Case):
    """No command is out of memory on 200,000 keys where there is memory enough."""

    def test_many_keys(self):
        room = folder(self.addCleanup)
        made('make_large', room)
        data, output = (read(room, 'ptree' + end) for end in ('.in', '.out'))
        self.assert_ends(run([self.program('ptree'), 'bytes'], data), output)


class Files(Case):
    """The files that the gate compares with are those that the model makes."""

    def test_answers_to_cases_are_those_of_the_model(self):
        room = os.path.join(folder(self.addCleanup), 'cases')
        shutil.copytree(os.path.join(ROOT, 'tests', 'cases'), room)
        made('make_cases', room)
        self.assertEqual(sorted(os.listdir(room)), sorted(os.listdir(os.path.join(ROOT, 'tests', 'cases'))))
        for name in os.listdir(room):
            self.assertEqual(read(room, name), read('tests', 'cases', name), name)
