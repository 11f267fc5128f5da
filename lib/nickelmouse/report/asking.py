"""The arguments of a constraint, constants too, by asking the proved reader.

`fzncheck --items` leaves constants out. But the reader says at which byte a text stops to be a file: behind words that lead to a value it
names the first byte behind the value. So the bytes of a constraint's item are handed to it, one argument behind the other, and it says
where each ends. An argument is then declared as an array of variables, and the reader lists its entries with the constants among them. What
it can't be asked is unknown: then nothing is told of the constraint."""
import os
import re
from dataclasses import dataclass

from nickelmouse.certificates import shown_by
from nickelmouse.edits import place_of_declaration
from nickelmouse.items import Span, blanked, items_of, replaced
from nickelmouse.running import output_of

SYNTAX = 3
# The limits of the language: entries of an array, numbers.
GREATEST, WIDEST = 100_000, 10 ** 9
VALUES = (b'var int: nickelmouse = ', b'array [1..0] of var int: nickelmouse = ')
NAMED, PARAMETER = b'var bool: ', b'predicate nickelmouse('
# A value has no strings, so that each of these signs begins a comment.
COMMENT = re.compile(rb'%[^\n]*')


class Unknown(Exception):
    """What the reader can't be asked."""


@dataclass(frozen=True)
class Listed:
    """A list of terms: for each the number of its variable, or nothing; and its constant, or nothing."""
    entries: tuple
    constants: tuple

    def values(self, solution):
        """The values of the terms under a solution, which has those of all variables in order."""
        return [constant if number is None else solution[number - 1] for number, constant in zip(self.entries, self.constants)]


def bare(value):
    """A value without the comments and the blanks around it."""
    return COMMENT.sub(b'', value).strip()


def place_in(text, fault):
    """The byte of a text at which a fault stands."""
    place = 0
    for _ in range(fault.line - 1):
        place = text.index(b'\n', place) + 1
    return place + fault.column - 1


class Asking:
    """Asks a reader about a file, over a folder."""

    def __init__(self, programs, reader, text, items, folder):
        self.check, self.solve, self.reader, self.text, self.items = programs.check, programs.solve, reader, text, items
        self.path = os.path.join(folder, 'asked.fzn')
        self.parameters = dict(items.parameters)
        self.literals = {}

    def read(self, text):
        """What a text states. Refused, where it has a fault."""
        with open(self.path, 'wb') as file:
            file.write(text)
        try:
            return items_of(self.check, self.path)
        finally:
            os.remove(self.path)

    def behind(self, front, rest):
        """How many bytes of the rest go on what the front begins."""
        fault = self.reader.fault(front + rest)
        if fault is None or fault.number != SYNTAX:
            raise Unknown
        return place_in(front + rest, fault) - len(front)

    def value_in(self, rest):
        """The bytes of the value that a text begins with."""
        for front in reversed(VALUES) if rest.lstrip().startswith(b'[') else VALUES:
            value = rest[:self.behind(front, rest)]
            if value.strip():
                return value
        raise Unknown

    def arguments(self, constraint, count):
        """The bytes of the first arguments of a constraint, so many."""
        item = constraint.span.of(self.text)
        place = len(b'constraint')
        place += self.behind(NAMED, item[place:])
        found = []
        for _ in range(count):
            value = self.value_in(item[place + 1:])
            found.append(bare(value))
            place += 1 + len(value)
        return found

    def literal_of(self, argument):
        """The bytes of a list: its own, or those of the parameter that it names."""
        name = argument.decode('latin-1')
        if name not in self.parameters:
            return argument
        if name not in self.literals:
            item = self.parameters[name].of(self.text)[:-len(b';')]
            self.literals[name] = bare(self.value_in(item[self.behind(PARAMETER, item) + 1:]))
        return self.literals[name]

    def declared(self, argument):
        """The list that an argument names, where it is an array of variables."""
        array = self.items.arrays.get(argument.decode('latin-1'))
        return Listed(array.entries, array.constants) if array is not None else None

    def lists(self, wanted):
        """The lists of some arguments, each with the number of its entries."""
        found, asked = [self.declared(argument) for argument, _ in wanted], {}
        stem = self.items.fresh('nickelmouse_list')
        for place, (argument, length) in enumerate(wanted):
            if found[place] is None:
                asked[self.items.fresh(f'{stem}_{place}')] = place, length, self.literal_of(argument)
        if asked:
            arrays = self.read(self.with_arrays(asked)).arrays
            for name, (place, _, _) in asked.items():
                found[place] = Listed(arrays[name].entries, arrays[name].constants)
        return found

    def with_arrays(self, asked):
        """The declarations of the file, with further arrays behind them, and without its constraints."""
        written = [b' array [1..%d] of var int: %s = %s;' % (length, name.encode(), literal)
                   for name, (_, length, literal) in asked.items()]
        return self.with_declarations(b''.join(written), b'solve satisfy;')

    def with_declarations(self, written, goal):
        """The declarations of the file, with further ones behind them, another goal, and without its constraints."""
        place = place_of_declaration(self.items)
        edits = [(Span(place, place), written), (self.items.goal.span, goal)]
        return replaced(blanked(self.text, [one.span for one in self.items.stated()]), edits)

    def length(self, arguments):
        """How many entries each of some lists has, which have equally many: as one of them is declared; else the greatest index, which the
        solver finds."""
        for argument in arguments:
            array = self.declared(argument)
            if array is not None:
                return len(array.entries)
        return self.greatest_index(self.literal_of(arguments[0]))

    def greatest_index(self, literal):
        """The greatest index of a list."""
        index, entry = self.items.fresh('nickelmouse_index'), self.items.fresh('nickelmouse_entry')
        model = self.with_declarations(
            f' var 1..{GREATEST}: {index}; var -{WIDEST}..{WIDEST}: {entry};'.encode(),
            f'constraint array_var_int_element({index},'.encode() + literal + f',{entry}); solve maximize {index};'.encode())
        certificate = self.path + '.fzc'
        try:
            with open(self.path, 'wb') as file:
                file.write(model)
            output_of([self.solve, '--cert', certificate, self.path])
            output_of([self.check, self.path, certificate])
            number = next(variable.number for variable in items_of(self.check, self.path).variables if variable.name == index)
            values = shown_by(certificate).last
        finally:
            for path in (self.path, certificate):
                if os.path.exists(path):
                    os.remove(path)
        return values[number - 1] if values is not None else 0
