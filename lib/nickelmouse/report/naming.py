"""What a planner calls the variables and the constraints of a compiled file: the names of the MiniZinc model, where the compiler has told
them."""
import re

from nickelmouse.bound import INTRODUCED
from nickelmouse.places import Source, conjunct_of, path_of, place_text

INDEXED = re.compile(r'(.*?)\[(.+)\]', re.S)


def index_of(place, ranges):
    """The index of an entry, from 0 on, in an array with these ranges, as text; with none of them its number from 1 on."""
    if not ranges:
        return str(place + 1)
    found = []
    for written in reversed(ranges[1:]):
        least, greatest = map(int, written.split('..'))
        place, rest = divmod(place, greatest - least + 1)
        found.append(least + rest)
    found.append(int(ranges[0].split('..')[0]) + place)
    return ','.join(map(str, reversed(found)))


class Names:
    """The names in a file by its items, and by the table of what comes from where in the model; empty, where it was not compiled from
    one."""

    def __init__(self, items, table):
        self.items = items
        # The paths of a large model are long; few of them are wanted.
        rows = [(line.split('\t') + ['', ''])[:3] for line in table.splitlines()]
        self.paths, self.titles = {key: path for key, _, path in rows}, {key: title for key, title, _ in rows}
        self.source = Source()
        self.places = {}
        for array in items.arrays.values():
            if not array.name.startswith(INTRODUCED):
                for place, number in enumerate(array.entries):
                    self.places.setdefault(number, f'{array.name}[{index_of(place, array.ranges)}]')

    def variable(self, number):
        """The name of a variable: of the model, else as an entry of an array that has a name, else of the file."""
        name = self.items.variable(number).name
        title = self.titles.get(name, name)
        if not title.startswith(INTRODUCED):
            return title
        return self.places.get(number, name)

    def index(self, number):
        """What stands between the brackets of a variable's name, as a list of texts; empty, where it has none."""
        found = INDEXED.fullmatch(self.variable(number))
        return [part.strip() for part in found[2].split(',')] if found else []

    def constraint(self, constraint):
        """The place of a constraint in the model and what stands there, then the values of the loops' indices; empty where that is not
        known."""
        steps = path_of(self.paths.get(str(constraint.number - 1), ''))
        if not steps:
            return f'constraint {constraint.number} of the file', '', ''
        step, indices = conjunct_of(steps)
        text = self.source.text(step)
        return place_text(step), text, ', '.join(f'{name} = {self.source.value(at, value)}' for at, name, value in indices)
