"""The commands of the pages about `prefixes`: an indented line that begins with a dollar sign is a command for bash,
and the indented lines after it are what it writes."""
import os

HERE = os.path.dirname(os.path.abspath(__file__))
PAGES = {
    'PREFIXES': os.path.join(HERE, '..', '..', 'docs', 'PREFIXES.md'),
    'borders': os.path.join(HERE, 'borders.md'),
}
# The folders whose files lie where the commands run.
FILES = os.path.join(HERE, 'lists'), os.path.join(HERE, 'data')


def commands(page):
    """Yields each command of a page with what it writes."""
    command, wanted = None, []
    with open(PAGES[page], encoding='utf-8') as lines:
        for line in [*lines, '\n']:
            if line.startswith('    $ ') or not line.startswith('    '):
                if command is not None:
                    yield command, ''.join(wanted)
                command, wanted = None, []
            if line.startswith('    $ '):
                command = line[6:-1]
            elif command is not None:
                wanted.append(line[4:])
