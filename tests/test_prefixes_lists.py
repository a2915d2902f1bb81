"""Lists of the world, networks and addresses: the program `prefixes` against plain models."""
import os
import random
import shutil
from tests.prefixes import model, networks
from tests.prefixes.pages import FILES
from tests.support import BUILDS, Case, each, folder, run


class Lists(Case):
    """Each command writes what the model does, of lists of the world and of lines that are made of their names, in each
    form: the lists packed, too, and read from the standard input."""

    @classmethod
    def setUpClass(cls):
        cls.room = folder(cls.addClassCleanup)
        for form in model.FORMS:
            for place in FILES:
                shutil.copytree(place, os.path.join(cls.room, form), dirs_exist_ok=True)
            for name in cls.names(form):
                with open(os.path.join(cls.room, form, name), 'rb+') as file:
                    data = model.formed(form, file.read())
                    file.seek(0)
                    file.write(data)

    @classmethod
    def names(cls, form):
        return [entry.name for entry in os.scandir(os.path.join(cls.room, form)) if entry.is_file()]

    @each(*model.CASES)
    def lists(self, words, form):
        command, name, *more = words.split()
        lines = b''
        if words in model.ASKED:
            lines = model.formed(form, model.asked_lines(words, os.path.join(self.room, 'lines', name)))
        wanted = model.answered((command, name, *more, *model.FORMS[form]), lines, os.path.join(self.room, form))
        for build in BUILDS:
            with self.subTest(build):
                self.compare(build, words, form, lines, *wanted)

    def compare(self, build, words, form, lines, wanted, status):
        """Asks a build of a list as lines, packed and, if there are lines, from the standard input."""
        program, room, flags = self.program('prefixes', build), os.path.join(self.room, form), model.FORMS[form]
        command, name, *more = words.split()
        packed = folder(self.addCleanup)
        for one in {name, *more} & {*self.names(form)}:
            out = os.path.join(packed, one)
            self.assert_ends(run([program, 'pack', one, out, *(flag for flag in flags if flag != '--json')], cwd=room))
        for place in room, packed:
            self.assert_ends(run([program, command, name, *more, *flags], lines, cwd=place), wanted, status=status)
        if lines:
            with open(os.path.join(room, name), 'rb') as listed, open(os.path.join(packed, 'lines'), 'wb') as file:
                file.write(lines)
                data = listed.read()
            read = [program, command, '-', *more, *flags, '--lines', file.name]
            self.assert_ends(run(read, data), wanted, status=status)


class Networks(Case):
    """Networks and addresses at random are answered as Python's `ipaddress` tells them, of a table as lines and packed."""

    @each(*((count, build) for count in (1, 30, 1000) for build in ('clang', 'rattle')))
    def table(self, count, build):
        chosen, program = random.Random(count), self.program('prefixes', build)
        table = networks.rows(chosen, count)
        lines = networks.addresses(chosen, table)
        paths = [os.path.join(folder(self.addCleanup), name) for name in ('lines', 'packed')]
        with open(paths[0], 'w', encoding='utf-8') as file:
            file.writelines('%s\t%s\n' % row for row in table)
        self.assert_ends(run([program, 'pack', *paths]))
        # a packed list has each name once, in the order of their bytes
        for path, rows in zip(paths, (table, sorted(dict(table).items()))):
            by_network = networks.table(rows)
            wanted = ''.join(networks.answer(by_network, line) for line in lines).encode()
            ran = run([program, 'route', path, '--cidr'], ''.join(line + '\n' for line in lines).encode())
            self.assert_ends(ran, wanted, status=int(not wanted.replace(b'-\n', b'')))
