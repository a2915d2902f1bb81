#!/usr/bin/env python3
"""Makes all packages twice, in clones of other names and depths, with another time zone, language and mask of
permissions, and compares their bytes.

    packaging/reproduce.py [--keep FOLDER] [WORD..]    the words are those of packaging/dist.py, but for --to;
                                                       --keep puts the first ones there
"""
import os
import shutil
import subprocess
import sys
import tempfile
from concurrent.futures import ThreadPoolExecutor

sys.dont_write_bytecode = True
sys.path.insert(0, os.path.dirname(os.path.abspath(__file__)))
import gate  # noqa: E402
import tree  # noqa: E402

# For each time: the folder of the clone, the environment, and the mask of permissions.
TIMES = (('one', {'TZ': 'UTC', 'LC_ALL': 'C'}, 0o022),
         ('another/and/deeper', {'TZ': 'Asia/Tokyo', 'LC_ALL': 'C.UTF-8'}, 0o077))


def made(room, words, folder, env, mask):
    """The text of SHA256SUMS of packages that are made in a clone, or None where that failed and has said why."""
    clone, to = os.path.join(room, folder), os.path.join(room, 'made', folder)
    subprocess.run(['git', 'clone', '-q', tree.ROOT, clone], check=True)
    os.makedirs(os.path.dirname(to), exist_ok=True)
    script = os.path.join(clone, 'packaging', 'dist.py')
    ran = subprocess.run([sys.executable, '-B', script, '--to', to, '--gate', gate.FOLDER, *words], cwd=clone,
                         env={**os.environ, **env}, umask=mask, stdout=subprocess.DEVNULL, check=False)
    if ran.returncode:
        return None
    with open(os.path.join(to, 'SHA256SUMS'), encoding='utf-8') as file:
        return file.read()


def main(words):
    keep = words[1] if words[:1] == ['--keep'] else None
    with tempfile.TemporaryDirectory(prefix='patricia-') as room:
        with ThreadPoolExecutor(len(TIMES)) as pool:
            first, second = pool.map(lambda time: made(room, words[2 * bool(keep):], *time), TIMES)
        if first is None or second is None:
            sys.exit(1)
        if keep:
            shutil.move(os.path.join(room, 'made', TIMES[0][0]), keep)
    if first != second:
        differing = sorted({*first.splitlines()} ^ {*second.splitlines()}, key=lambda line: line[66:])
        sys.exit('two builds differ:\n' + '\n'.join(differing))
    print(first + 'two builds have the same bytes')


if __name__ == '__main__':
    main(sys.argv[1:])
