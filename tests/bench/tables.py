"""Prints a table of figures: tables.py lines|ratios|growth|cache|fill|churn|calls < FIGURES.

A figure is a line of its own: the number of keys, their kind, the program, the name of its line, and the number. Where
there are several of one line, the least of them counts.

    lines     all lines, of one kind of keys
    ratios    the ratios of a few lines to std's ordered map, of all kinds of keys
    growth    a few lines by the number of keys
    cache     what a look-up costs, by events of cachegrind
    fill      what an insert from a line takes, by the type of values
    churn     what a key takes before and after keys were removed and inserted again, by their kind
    calls     the map, and the map from C
"""
import sys

TITLES = {'map': 'the map', 'btree': "std's ordered map", 'judy': 'JudySL', 'hat': 'HAT-trie',
          'exports': 'the map from C'}
# What programs print besides the figures that are compared.
FACTS = 'keys', 'share', 'relocated', 'tree_size'
RATIOS = 'get', 'get_absent', 'insert', 'remove', 'scan', 'memory'
GROWTH = 'insert', 'get', 'get_absent', 'scan', 'memory'
LOOK_UPS = 'get', 'get_absent', 'longest'
# So many keys `longest` is asked for at most.
FEW = 100000
# The events that a row of costs adds.
EVENTS = {'instructions': ['Ir'], 'mispredicted branches': ['Bcm', 'Bim'],
          'lines that are not in 32 KiB': ['I1mr', 'D1mr', 'D1mw'],
          'lines that are not in 1 MiB': ['ILmr', 'DLmr', 'DLmw']}


def read(lines):
    """The least figures by number and kind of keys, by program, and by the names of lines."""
    found = {}
    for line in lines:
        count, kind, program, name, number = line.split()
        figures = found.setdefault((int(count), kind), {}).setdefault(program, {})
        figures[name] = min(float(number), figures.get(name, float(number)))
    return found


def table(head, rows):
    """Prints a table."""
    print('| %s |' % ' | '.join(head))
    print('|---' * len(head) + '|')
    for row in rows:
        print('| %s |' % ' | '.join(row))


def cell(figures, program, name):
    """A figure, or a dash where the program has no such line."""
    return '%d' % figures[program][name] if name in figures.get(program, ()) else '-'


def over(figures, program, other, name):
    """The ratio of a figure to that of another program, or a dash where one of them has no such line."""
    if name not in figures.get(program, ()) or name not in figures.get(other, ()):
        return '-'
    return '%.2f' % (figures[program][name] / (figures[other][name] or 1))


def age(each):
    """When the nodes were last relocated."""
    print('\nThe nodes were last relocated when %s of 1,000 entries were there.'
          % ', '.join('%d' % figures['map']['relocated'] for figures in each))


def rate(count, nanoseconds):
    """How many millions a second: so many for 1,000 entries, each of which takes so long."""
    return count / (nanoseconds or 1)


def remarks(ours, theirs):
    """Says what a split removes, and how much is written and read."""
    print('split_by_prefix removes %d of 1,000 entries.' % ours['share'])
    print('tree_bytes writes %d bytes for 1,000 entries, %d million a second; the copy %d, %d million a second.'
          % (ours['tree_size'], rate(ours['tree_size'], ours['tree_bytes']),
             theirs['tree_size'], rate(theirs['tree_size'], theirs['tree_bytes'])))
    print('from_wire reads %d million bytes a second and makes %.2f million entries; '
          'insert_sorted makes %.2f million a second.\n'
          % (rate(ours['tree_size'], ours['from_wire']), rate(1000, ours['from_wire']),
             rate(1000, ours['insert_sorted'])))


def print_lines(found):
    """All lines of the map, and of the other programs that ran."""
    for (count, kind), figures in found.items():
        others = [it for it in [('judy', 'btree'), ('hat', 'btree'), ('exports', 'map')] if it[0] in figures]
        head = ['%d %s' % (count, kind), TITLES['map'], TITLES['btree'], 'ratio']
        for program, to in others:
            head += [TITLES[program], 'ratio' if to == 'btree' else 'to the map']
        rows = []
        for name in [name for name in figures['map'] if name not in FACTS]:
            row = [name, cell(figures, 'map', name), cell(figures, 'btree', name), over(figures, 'map', 'btree', name)]
            for program, to in others:
                row += [cell(figures, program, name), over(figures, program, to, name)]
            rows.append(row)
        table(head, rows)
        age([figures])
        remarks(figures['map'], figures['btree'])


def print_ratios(found):
    """The ratios of a few lines to std's map, for each kind of keys."""
    programs = [program for program in ('map', 'judy', 'hat') if all(program in it for it in found.values())]
    head = ["%d keys, ratio to std's ordered map" % min(count for count, _ in found), 'line']
    table(head + [TITLES[program] for program in programs],
          [[kind, name, *(over(figures, program, 'btree', name) for program in programs)]
           for (_, kind), figures in found.items() for name in RATIOS])
    age(found.values())
    print()


def print_growth(found):
    """A few lines of the map and of std's, for each number of keys."""
    kinds = sorted({kind for _, kind in found})
    table([' '.join(kinds), 'line', TITLES['map'], TITLES['btree'], 'ratio'],
          [['%d' % count, name, cell(figures, 'map', name), cell(figures, 'btree', name),
            over(figures, 'map', 'btree', name)] for (count, _), figures in found.items() for name in GROWTH])
    age(found.values())
    print()


def print_cache(found):
    """What a look-up costs: what a run that looks all keys up has more than one that only fills the map."""
    for (count, kind), figures in found.items():
        def cost(program, line, events):
            calls = min(count, FEW) if line == 'longest' else count
            return sum(figures[program]['%s:%s' % (line, it)] - figures[program]['insert:' + it]
                       for it in events) / calls

        rows = []
        for line in LOOK_UPS:
            for what, events in EVENTS.items():
                ours, theirs = cost('map', line, events), cost('btree', line, events)
                rows.append(['%s: %s' % (line, what), '%.1f' % ours, '%.1f' % theirs, '%.2f' % (ours / (theirs or 1))])
        table(['%d %s, for each look-up' % (count, kind), TITLES['map'], TITLES['btree'], 'ratio'], rows)
        age([figures])
        print()


def print_fill(found):
    """What memory and time an insert takes, for each type of values."""
    print_both(found, 'titles', {'memory': 'bytes', 'peak': 'peak', 'fill': 'ns'})


def print_churn(found):
    """What memory a key takes, by the kind of keys."""
    print_both(found, 'keys', {'memory': 'bytes', 'churned_memory': 'later', 'churned_peak': 'peak'})


def print_both(found, keys, names):
    """A row for each kind, with these lines of the map and of std's, and their ratio."""
    head = ['%d %s' % (min(count for count, _ in found), keys)]
    table(head + [it for unit in names.values() for it in (unit, "std's", 'ratio')],
          [[kind, *(it for name in names for it in (cell(figures, 'map', name), cell(figures, 'btree', name),
                                                    over(figures, 'map', 'btree', name)))]
           for (_, kind), figures in found.items()])
    print()


def print_calls(found):
    """By how much the figure from C is greater."""
    for (count, kind), figures in found.items():
        table(['%d %s' % (count, kind), TITLES['map'], TITLES['exports'], 'more'],
              [[name, cell(figures, 'map', name), cell(figures, 'exports', name),
                '%d' % (figures['exports'][name] - figures['map'][name])]
               for name in figures['exports'] if name not in FACTS])
        print()


PRINTED = {'lines': print_lines, 'ratios': print_ratios, 'growth': print_growth, 'cache': print_cache,
           'fill': print_fill, 'churn': print_churn, 'calls': print_calls}

if __name__ == '__main__':
    PRINTED[sys.argv[1]](read(sys.stdin))
