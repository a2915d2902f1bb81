"""Which mutants are due: those of a crate of which a check reads other sources than when all of them were good, and
those that have changed since.

packaging/mutants.json says of each crate at which commit that was, by which kit, how many mutants the prover showed
false by values, and of how many someone read why they are. `untried` marks a crate of which some mutants, or the sources
that their checks read, have changed since they were tried.
"""
import json
import os
import subprocess

from tests import crates as listing
from tests.mutants.edits import PARTS, read

RECORD = os.path.join('packaging', 'mutants.json')


def told(root, *words):
    """The lines that a program answers, or None where it fails."""
    ran = subprocess.run(words, cwd=root, stdin=subprocess.DEVNULL, check=False, stdout=subprocess.PIPE,
                         stderr=subprocess.DEVNULL, encoding='utf-8')
    return ran.stdout.split('\n')[:-1] if ran.returncode == 0 else None


def kit(root):
    """The line by which the kit names itself."""
    return told(root, 'rt', 'version')[0]


def recorded(root):
    """What the record says of each crate."""
    path = os.path.join(root, RECORD)
    return json.loads(read(path)) if os.path.isfile(path) else {}


def changed(root, commit):
    """The files that differ from a commit, or that git does not track, but not those that are gone; None if it knows no
    such commit."""
    files = told(root, 'git', 'diff', '--no-renames', '--diff-filter=d', '--name-only', commit, '--')
    return files if files is None else files + told(root, 'git', 'ls-files', '--others', '--exclude-standard')


def of_crate(root, crates, crate, commit):
    """The names of the mutants of a crate that are due since a commit at which all were good: of the crate itself if a
    source has changed that their checks read, or else of those that have changed."""
    files = changed(root, commit)
    sources = tuple('crates/%s/%s/' % (x, part) for x in (crate, *listing.below(crates, crate)) for part in PARTS)
    if files is None or any(x.startswith(sources) for x in files):
        return [crate]
    own = 'crates/%s/must-fail/' % crate
    return ['%s/%s' % (crate, x.removeprefix(own).removesuffix('.edit')) for x in files
            if x.startswith(own) and x.endswith('.edit')]


def names(root, crates):
    """The names of the crates whose mutants are all due, and CRATE/EDIT of each other one that is."""
    known, this_kit, found = recorded(root), kit(root), []
    for crate in [x for x in crates if os.path.isdir(os.path.join(root, 'crates', x, 'must-fail'))]:
        of = known.get(crate, {})
        found += of_crate(root, crates, crate, of['commit']) if of.get('kit') == this_kit else [crate]
    return found


def untried(root):
    """The names of the crates of which some mutants were not tried as they are."""
    return [x for x, of in recorded(root).items() if of.get('untried')]


def record(root, good):
    """Writes into the record that all mutants of these crates are good at the last commit, with how many were refuted
    and read of each. Those of which files differ from that commit are left out."""
    crates = listing.listed(root)
    head = told(root, 'git', 'rev-parse', 'HEAD')[0]
    known = {x: of for x, of in recorded(root).items() if x in crates}
    for crate in [x for x in good if not of_crate(root, crates, x, head)]:
        known[crate] = {'commit': head, 'kit': kit(root), 'refuted': good[crate][0], 'read': good[crate][1]}
    with open(os.path.join(root, RECORD), 'w', encoding='utf-8') as file:
        file.write(json.dumps(known, indent=1, sort_keys=True) + '\n')
