"""What is known of a model for a search of neighbourhoods: which variables decide, which of them share a constraint, what the objective adds up.

All of it comes from the items of the file. Nothing of it has to be right: it says what is worth trying."""
from dataclasses import dataclass, field

SUMS = ('int_lin_eq', 'int_plus')
GREATEST = ('array_int_maximum', 'int_max')
ORDERS = ('int_lin_le_reif', 'int_le_reif', 'int_lt_reif')
# Constraints that tie a few variables so that some follow from others, though none says which.
TIES = ('bool2int', 'fzn_table_int', 'int_abs', 'int_div', 'int_max', 'int_min', 'int_mod', 'int_plus', 'int_times', 'int_lin_eq', 'int_eq',
        'array_bool_and', 'array_bool_or')
TIE_ENDINGS = ('_element', '_reif')
# How many variables a tie may have, how many are looked at to find what one stands for, and how many terms of an objective.
MOST_TIED, MOST_BEHIND, MOST_TERMS = 10, 100, 20_000


@dataclass(frozen=True)
class Term:
    """A term of the objective: its variable, the value at which it costs least, as far as the sense of the objective says so, and the
    positions of the units that it depends on."""
    variable: int
    ideal: int
    units: tuple


@dataclass(frozen=True)
class Order:
    """A Boolean that says that one task is before another one: its number, and the positions of their starts."""
    boolean: int
    one: int
    other: int


@dataclass
class Structure:
    """A model as neighbourhoods see it. A unit is a variable that decides, or the start of a task; others follow from these. `starts` are the
    positions of units that are starts: they are never fixed, but what orders them. `scopes` has for each constraint over several units their
    positions, `at` for each unit the numbers of its scopes; `costs` are the variables that the objective adds up, `terms` those that follow from
    units, and `circuits` has the units of each circuit, place by place."""
    units: list = field(default_factory=list)
    starts: set = field(default_factory=set)
    orders: list = field(default_factory=list)
    chains: list = field(default_factory=list)
    scopes: list = field(default_factory=list)
    at: list = field(default_factory=list)
    costs: list = field(default_factory=list)
    terms: list = field(default_factory=list)
    circuits: list = field(default_factory=list)


class Reader:
    """Finds the structure of a model in its items."""

    def __init__(self, items):
        self.items = items
        self.definitions = {one.defines: one for one in items.constraints if one.defines is not None}
        self.behind, self.position, self.ties = {}, {}, {}

    def structure(self):
        """The structure."""
        found = Structure()
        pairs = self.pairs()
        starts = self.starts(pairs)
        found.units = self.units(starts)
        self.position = {number: place for place, number in enumerate(found.units)}
        self.ties = self.ties_of_others()
        found.starts = {self.position[number] for number in starts}
        found.orders = [Order(boolean, self.position[one], self.position[other]) for (one, other), boolean in pairs.items()
                        if one in starts and other in starts]
        ordered = {place for order in found.orders for place in (order.one, order.other)}
        found.chains = sorted(found.starts - ordered)
        found.scopes = self.scopes()
        found.at = [[] for _ in found.units]
        for number, scope in enumerate(found.scopes):
            for place in scope:
                found.at[place].append(number)
        found.costs = self.costs()
        found.terms = [term for term in map(self.term, found.costs) if term.units]
        found.circuits = self.circuits()
        return found

    def arguments(self, constraint):
        """The numbers of a constraint's variables, in order."""
        return [number for argument in constraint.arguments
                for number in ([argument] if isinstance(argument, int) else self.items.arrays[argument].variables)]

    def is_integer(self, number):
        """Whether a variable is an integer."""
        return self.items.variable(number).declared is not None

    def pairs(self):
        """For each two integers of which a Boolean says that the first is before the second: the Boolean."""
        found = {}
        for constraint in self.items.constraints:
            if constraint.name in ORDERS:
                numbers = self.arguments(constraint)
                if len(numbers) == 3 and self.is_integer(numbers[0]) and self.is_integer(numbers[1]) and numbers[0] != numbers[1]:
                    found.setdefault((numbers[0], numbers[1]), numbers[2])
        return found

    def starts(self, pairs):
        """The starts of tasks: integers of which Booleans say both orders, and those of cumulatives."""
        found = {number for one, other in pairs if (other, one) in pairs for number in (one, other)}
        for constraint in self.items.constraints:
            if constraint.name == 'fzn_cumulative' and constraint.arguments:
                first = constraint.arguments[0]
                found.update(self.items.arrays[first].variables if isinstance(first, str) else self.arguments(constraint))
        return {number for number in found if self.is_integer(number)}

    def units(self, starts):
        """The variables that decide, in the order of the annotations; else of those that are printed; else of all. And the starts."""
        items, goal = self.items, self.items.goal.variable
        printed = [variable.number for variable in items.variables if variable.output]
        printed += [number for array in items.arrays.values() if array.output for number in array.variables]
        every = [variable.number for variable in items.variables]
        for numbers in (items.annotated, printed, every):
            chosen = [number for number in dict.fromkeys(numbers)
                      if number != goal and (number in starts or not items.variable(number).defined)]
            if len(chosen) > 1:
                break
        return list(dict.fromkeys([*chosen, *sorted(starts)]))

    def ties_of_others(self):
        """For variables that are no units and that nothing defines: the first constraint that ties each to others."""
        found, goal = {}, self.definitions.get(self.items.goal.variable)
        for constraint in self.items.constraints:
            if constraint is not goal and (constraint.name in TIES or constraint.name.endswith(TIE_ENDINGS)):
                numbers = self.arguments(constraint)
                for number in numbers if len(numbers) <= MOST_TIED else ():
                    if number not in self.position and number not in self.definitions:
                        found.setdefault(number, constraint)
        return found

    def units_behind(self, number):
        """The positions of the units that a variable follows from, by what defines it: as many as are found soon."""
        if number not in self.behind:
            found, seen, waiting = [], {number}, [number]
            while waiting and len(seen) <= MOST_BEHIND:
                one = waiting.pop()
                if one in self.position:
                    found.append(self.position[one])
                elif one in self.definitions or one in self.ties:
                    others = [other for other in self.arguments(self.definitions.get(one) or self.ties[one]) if other not in seen]
                    seen.update(others)
                    waiting += others
            self.behind[number] = tuple(found)
        return self.behind[number]

    def scopes(self):
        """The units of each constraint that has several, each set of them once."""
        goal, found = self.items.goal.variable, {}
        for constraint in self.items.constraints:
            if constraint.defines != goal or goal is None:
                places = {place for number in self.arguments(constraint) for place in self.units_behind(number)}
                if len(places) > 1:
                    found[tuple(sorted(places))] = None
        return list(found)

    def defined_by(self, number):
        """The constraint that defines a variable; of the objective, where none says so, the first sum that it stands in."""
        if number in self.definitions or number != self.items.goal.variable:
            return self.definitions.get(number)
        sums = (one for one in self.items.constraints if one.name in SUMS + GREATEST and number in self.arguments(one))
        return next(sums, None)

    def costs(self):
        """The terms of the objective, through sums of sums and greatest values: the numbers of their variables."""
        found, waiting, seen = [], [self.items.goal.variable], set()
        while waiting and len(found) + len(waiting) < MOST_TERMS:
            number = waiting.pop()
            if number is None or number in seen:
                continue
            seen.add(number)
            definition = self.defined_by(number)
            if definition is not None and definition.name in SUMS + GREATEST:
                waiting += [other for other in reversed(self.arguments(definition)) if other not in seen]
            else:
                found.append(number)
        return found

    def circuits(self):
        """For each circuit the units of its places, in order: nothing where a place is no unit."""
        found = []
        for constraint in self.items.constraints:
            if constraint.name == 'fzn_circuit':
                entries = self.entries(constraint)
                found.append([self.position.get(number) for number in entries])
        return [places for places in found if sum(place is not None for place in places) > 3]

    def term(self, number):
        """A term of the objective."""
        least, greatest = ends_of(self.items.variable(number).declared)
        return Term(number, greatest if self.items.goal.word == 'maximize' else least, self.units_behind(number))

    def entries(self, constraint):
        """The entries of a constraint over one array: nothing for a constant."""
        first = constraint.arguments[0]
        return self.items.arrays[first].entries if isinstance(first, str) else self.arguments(constraint)


def ends_of(declared):
    """The least and the greatest number of a declared set, as it is written; of a Boolean 0 and 1."""
    if declared is None:
        return 0, 1
    if declared.startswith('{'):
        numbers = declared[1:-1].split(',')
        return int(numbers[0]), int(numbers[-1])
    least, greatest = declared.split('..')
    return int(least), int(greatest)


def structure_of(items):
    """The structure of a model."""
    return Reader(items).structure()
