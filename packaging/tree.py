"""What git knows of the checkout: its commit, and what differs from it; and the version, which patricia.h has."""
import io
import os
import re
import subprocess
import tarfile

ROOT = os.path.dirname(os.path.dirname(os.path.abspath(__file__)))


def git(*words, root=ROOT):
    """What git prints, as bytes; None where this is no checkout."""
    ran = subprocess.run(['git', '-C', root, *words], stdout=subprocess.PIPE,
                         stderr=subprocess.DEVNULL, check=False)
    return ran.stdout if ran.returncode == 0 else None


def commit(root=ROOT):
    """The commit, or None."""
    found = git('rev-parse', '--verify', '-q', 'HEAD', root=root)
    return found.decode().strip() if found else None


def changed(root=ROOT):
    """The files that differ from the commit, or that it does not have."""
    found = git('status', '--porcelain', '-z', root=root) or b''
    return [line[3:].decode('utf-8', 'replace') for line in found.split(b'\0') if line[2:3] == b' ']


def epoch(root=ROOT):
    """The time of the commit, in seconds."""
    return int(git('show', '-s', '--format=%ct', 'HEAD', root=root))


def export(folder, root=ROOT):
    """Writes the files of the commit into a folder."""
    with tarfile.open(fileobj=io.BytesIO(git('archive', 'HEAD', root=root))) as files:
        files.extractall(folder)


def version(root=ROOT):
    """The version of all that is packed."""
    with open(os.path.join(root, 'bindings', 'c', 'patricia.h'), encoding='utf-8') as file:
        return re.search(r'^#define PATRICIA_VERSION "(.*)"$', file.read(), re.M)[1]
