"""Runs a program with the Nth memory request refused, for N = 1, 2, .. until none is refused.

The program is `test_scripts`, which answers calls of maps and of sets. Each script is run alone. At
first a run may end with a status that is not 0 and no answers, since the program reads its input to its end before it
answers. From the first call on that is refused, each run ends with 0. Such a run writes the answers
of the plain model, and in at most one of its lines a refusal may stand, at a place where the model
allows it, behind what the call had answered before: a walk of some entries may be refused before
its last, and a Debug text before its end. A list in an answer is then made once more. Any other
call says what entries it left, and is made again, with the answer of one that was not refused. A
call that puts many pairs in is refused at one of them, and leaves those before it: in some run one
is left. With no request refused the answers are the model's own.
"""
import re
from typing import NamedTuple
from tests.oracle.answer_lines import OUT_OF_ORDER, answers, calls, loaded, model
from tests.oracle.model import is_valid, joins, rows, under
from tests.oracle.refusal_scripts import SCRIPTS
from tests.support import in_turn


def text_of(answered):
    """Answers as they stand behind the call."""
    return ''.join(' ' + word for word in answered) or ' '


# The calls whose answers are the entries of a map or the elements of a set.
LISTING = 'iter', 'from_iter', 'union', 'intersection', 'difference'

# The same behind how many pairs the call took, or how often it called its closure.
COUNTING = 'extend', 'merge', 'retain', 'load'

# The calls of a set with another one, and of a map with one.
OF_TWO = 'union', 'intersection', 'difference', 'subset', 'disjoint', 'same'


def lists(call, answered):
    """Where in the answers of a call a map is listed: from which one and to which."""
    is_read = call in ('read', 'read_wide') and not any(' ' in word for word in answered)
    if is_read or call in LISTING:
        return [(0, len(answered))]
    if call in COUNTING:
        return [(2 if OUT_OF_ORDER in answered[1:2] else 1, len(answered))]
    if call in ('split', 'split_off', 'clone'):
        n = answered.index('and')
        return [(0, n), (n + 1, len(answered))]
    return []


def put_in(kind, words):
    """The pairs that a call inserts. An element of a set has 0 behind it."""
    return model(kind, {}).pairs(words)


def shown(kind, m):
    """How what a map, a set or a router has is written."""
    return model(kind, m).do_iter()


# ---- Calls that may leave a part of what they do ----------------------------

# Of each the answers before the refusal, and the map then. Where a call goes on and is not made
# anew, its last answers stand behind them.


def put_in_part(m, kind, call, words, in_c):
    """A call that inserts pairs is out of memory at one of them. A map in C also allocates itself at its first pair."""
    made, found = {} if call == 'from_iter' else dict(m), []
    for taken, (key, value) in enumerate(put_in(kind, words), 1):
        if (key or in_c and not made) and key not in made:
            before = [str(taken)] if call == 'extend' else []
            found.append((before, m if call == 'from_iter' else dict(made)))
        made[key] = value
    return found


def loaded_in_part(m, kind, words):
    """A load is refused at a pair, and goes on with this one."""
    pairs, found, made = put_in(kind, words), [], dict(m)
    in_order = loaded(m, pairs)
    is_whole = len(in_order) == len(pairs)
    whole = shown(kind, {**m, **dict(in_order)})
    if m and pairs and not in_order:
        # the last key of the map, which the first pair is compared with, may be refused
        found.append((['1'], dict(m), ['1', OUT_OF_ORDER] + whole))
    for n, (key, value) in enumerate(in_order):
        left = len(in_order) - n
        last = [str(left)] if is_whole else [str(left + 1), OUT_OF_ORDER]
        found.append(([str(n + 1)], dict(made), last + whole))
        made[key] = value
    return found


def merged_in_part(m, kind, words):
    """A merge is refused before there is another map, or behind some of its entries."""
    found, made, shared = [([], dict(m)), (['0'], dict(m))], dict(m), 0
    for key, value in rows(dict(put_in(kind, words))):
        shared += key in m
        made[key] = max(made.get(key, 0), value)
        found.append(([str(shared)], dict(made)))
    return found


def retained_in_part(m, kind, words):
    """A call that keeps some entries is refused before the first, or at one that is to go. A set
    is whole then, however many of its elements were seen."""
    if kind.endswith('_set'):
        return [([str(n)], m) for n in range(len(m) + 1)]
    found, made = [(['0'], m)], dict(m)
    for n, (key, value) in enumerate(rows(m), 1):
        if value < int(words[0]):
            found.append(([str(n)], dict(made)))
            del made[key]
    return found


def left_behind(m, kind, call, words, answered, in_c):
    """What a call may have answered where it is refused, and the map then."""
    if call == 'take':
        return [(answered[:n], {}) for n in range(len(answered))]
    if call in ('insert', 'add', 'extend', 'from_iter'):
        return put_in_part(m, kind, call, words, in_c)
    if call == 'load':
        return loaded_in_part(m, kind, words)
    if call == 'merge':
        return merged_in_part(m, kind, words)
    if call == 'retain':
        return retained_in_part(m, kind, words)
    return [(before, m) for before in answered_before(m, kind, call, words, answered, in_c)]


# ---- Calls that leave the map as it was where they are refused --------------


def folded_in_part(m, kind, words, answered):
    """A closure was called at the first entries under a prefix alone."""
    found = []
    for n, prefix in enumerate(words):
        entries = under(m, prefix)
        for count in range(len(entries)):
            found.append([*answered[:n], model(kind, m).folded(entries[:count])])
    return found


def is_asked_past(m, call, answered, n):
    """Whether a question about the order of keys may find no memory at one of its answers."""
    if call == 'beside':
        # the way to the entry behind a key may be refused where there is none
        return any(m) if n % 2 else answered[n] != 'none'
    return answered[n] not in ('0', 'none')


def is_due(m, kind, call, words, answered):
    """Whether a call that has answered nothing before may find no memory."""
    if call == 'remove':
        return joins(m, words[0], kind.split('_')[0])
    if call == 'route_all':
        return bool(words)
    if call in ('split', 'split_off', 'cut', 'part', 'drop_prefix'):
        return words[0] != b'' and any(key.startswith(words[0]) for key in m)
    if call in ('clone', 'itself', 'twin'):
        return any(m)
    if call in ('pop_first', 'pop_last'):
        return bool(m)
    if call in ('read', 'read_wide', 'open', 'open_wide'):
        return len(words[0]) > (6 if call.endswith('_wide') else 4)
    if call == 'fill':
        return answered == ['true']
    if call == 'get_or_insert':
        return words[0] != b'' and words[0] not in m
    if call == 'along_owned':
        return any(words) and is_valid(words[0], kind)
    return call in ('tree', 'tree_wide', 'size', 'size_wide', 'reload', 'reload_wide')


def answered_before(m, kind, call, words, answered, in_c):
    """What such a call may have answered before it is refused."""
    if in_c and call in ('cursor', 'cursor_prefix'):
        # a cursor in C looks the entry ahead up
        return [answered[:n] for n in range(len(answered) + 1)]
    if call in ('keys', 'values', 'under', 'cursor', 'cursor_prefix'):
        return [answered[:n] for n in range(len(answered))]
    if call in ('range', 'cursor_range'):
        # an error may come where no entry is left
        return [answered[:n] for n in range(len(answered) + 1)]
    if call == 'debug':
        return [[answered[0][:n]] for n in range(len(answered[0]))]
    if call == 'copy':
        return [answered[:n] for n, word in enumerate(words) if word and is_valid(word, kind)]
    if call == 'fold':
        return folded_in_part(m, kind, words, answered)
    if call in ('ends', 'beside', 'count'):
        places = range(len(answered))
        return [answered[:n] for n in places if is_asked_past(m, call, answered, n)]
    if call in OF_TWO:
        # there was no other one, or it is as it was
        return [[], shown(kind, dict(put_in(kind, words)))] if m or words else []
    return [[]] if is_due(m, kind, call, words, answered) else []


# ---- A run ------------------------------------------------------------------


def refused(m, kind, call, words, answered, in_c):
    """The answers that a call may give of which a request is refused."""
    for first, last in lists(call, answered):
        for n in range(first, last):
            yield [*answered[:n], 'refused', *answered[first:]]
    if call == 'raise':
        # a cursor that writes goes on at the entry that was due
        for n in range(len(answered)):
            yield [*answered[:n], 'refused', *answered[n:]]
    for before, left, *last in left_behind(m, kind, call, words, answered, in_c):
        again = last[0] if last else answers(dict(left), kind, call, words)
        yield [*before, 'refused', *shown(kind, left), 'again', *again]


class Step(NamedTuple):
    """A line of a script, with the map before it, its call, and what the model answers."""
    line: str
    before: dict
    call: str
    words: list
    answered: list


def steps(lines, kind):
    """The steps of a script."""
    m, made = {}, []
    for line, call, words in calls(lines, kind):
        before = dict(m)
        made.append(Step(line, before, call, words, answers(m, kind, call, words)))
    return made


def is_allowed(script, kind, output, is_refused, in_c):
    """Whether the model allows an output of these steps, with a refusal in at most one line."""
    written_lines, refusals = output.decode().split('\n'), 0
    if len(written_lines) != len(script) + 1 or written_lines[-1]:
        return False
    for got, (line, before, call, words, answered) in zip(written_lines, script):
        if got == line + ':' + text_of(answered):
            continue
        refusals += 1
        allowed = refused(before, kind, call, words, answered, in_c)
        if not is_refused or refusals > 1:
            return False
        if got not in [line + ':' + text_of(each) for each in allowed]:
            return False
    return True


def is_kept(script, seen):
    """Whether some refusal of a first line that puts many keys in left some of them there."""
    line, _, call, words, _ = script[0]
    if call != 'extend' or len(words) < 8:
        return True
    kept = re.compile(re.escape(line) + r': \d+ refused (?!again)')
    return any(kept.match(got) for got in seen)


def check(program, name, offered=None):
    """Runs each script of a name, once for each kind of keys, until no request is refused: of a program in C the lines
    that it offers."""
    kinds, scripts = SCRIPTS[name]
    for kind in kinds:
        for script in scripts:
            lines = ['%s %s' % (kind, line) for line in script]
            kept = [line for line in lines if offered is None or ' '.join(line.split(' ')[:2]) in offered]
            seen = check_script(program, kind, kept, offered is not None)
            assert seen or len(kept) < len(lines), 'no request of a call'


def check_script(program, kind, lines, in_c):
    """Asserts what each run of a script writes. The lines in some run of which a call is refused."""
    data, made, seen = ''.join(line + '\n' for line in lines).encode(), steps(lines, kind), []
    for at, ran in in_turn([program], data):
        told = '%s, request %d: %r' % (kind, at, ran._replace(stdout=ran.stdout[-2000:]))
        if ran.returncode == 0:
            assert is_allowed(made, kind, ran.stdout, ran.is_refused, in_c) and ran.stderr == b'', told
            seen += [line for line in ran.stdout.decode().split('\n') if ' refused' in line]
        else:
            assert ran.is_refused and not seen and ran.stdout == b'', told
    assert not made or is_kept(made, seen), 'nothing was kept of ' + lines[0]
    return seen
