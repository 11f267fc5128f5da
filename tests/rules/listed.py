"""Lists of what is known to break a rule: plain files beside the rules, sorted, an entry on each line behind those that begin with #. A list
can only get shorter: what breaks the rule and is not on it is a fault, and so is an entry that breaks the rule no more."""
from tree import Fault

FOLDER = 'tests/rules'


def entries_of(tree, name):
    """The entries of a list, each with the number of its line."""
    lines = enumerate(tree.lines(f'{FOLDER}/{name}'), 1)
    return [(line, number) for number, line in lines if line and not line.startswith('#')]


def faults_against(tree, name, broken, mended):
    """The faults of a rule, where `broken` has the faults of each entry that breaks it. `mended` says what is true of one that does so no
    more."""
    path, entries = f'{FOLDER}/{name}', entries_of(tree, name)
    known = {entry for entry, _ in entries}
    for entry in sorted(broken.keys() - known):
        yield from broken[entry]
    before = ''
    for entry, number in entries:
        if entry not in broken:
            yield Fault(path, number, f'{entry} {mended}: delete this line')
        if entry <= before:
            yield Fault(path, number, f'{entry} stands behind {before}: sort the lines, each once')
        before = entry
