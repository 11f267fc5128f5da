"""What the lines of a head derive, and whether a step by the rule `row` is accepted.

It follows docs/CERTIFICATE-FORMAT.md and docs/LANGUAGE.md, shares nothing with the programs, and does each thing in the way that is plainest
to read. It reads the files of this folder's models: declarations of variables, constraints and a goal, one in a line, without names of
arrays. A head that has nothing wrong is a `Head`; what is wrong is a `Fault`."""
import re
from typing import NamedTuple

MOST_TERMS = MOST_WEIGHTS = 1_000_000
LONGEST, WIDEST = 100_000, 65_536
COEFFICIENT, LIMIT, VALUE = 10**12, 10**18, 10**9
OPERATORS = {'<=': int.__le__, '>=': int.__ge__, '==': int.__eq__, '!=': int.__ne__}


class Fault(Exception):
    """What is wrong with a line, by its number."""

    def __init__(self, number):
        self.number = number


def demand(is_so, number=51):
    if not is_so:
        raise Fault(number)


# ---- the model


class Var(NamedTuple):
    """A variable, by its number."""

    number: int


class Constraint(NamedTuple):
    name: str
    args: list


class Form(NamedTuple):
    """A sum of places, each a coefficient and a term, that compares so with a number; where there is a switch, exactly where that is 1."""

    places: list
    test: str
    bound: int
    switch: object = None


class File:
    """The declared values of each variable, and the constraints."""

    def __init__(self, text):
        self.sets, self.constraints, names = [], [], {}
        for line in text.splitlines():
            if found := re.fullmatch(r'var (.*): (\w+)( :: output_var)?;', line):
                self.sets.append(values_of(found[1]))
                names[found[2]] = Var(len(self.sets))
            elif found := re.fullmatch(r'constraint (\w+)\((.*)\);', line):
                self.constraints.append(Constraint(found[1], arguments(found[2], names)))


def values_of(text):
    if text == 'bool':
        return [0, 1]
    if text.startswith('{'):
        return sorted(map(int, text[1:-1].split(',')))
    low, high = map(int, text.split('..'))
    return list(range(low, high + 1))


def arguments(text, names):
    words = re.findall(r'[\[\]]|[^\[\],]+', text)
    args = into = []
    for word in words:
        if word == '[':
            into = []
            args.append(into)
        elif word == ']':
            into = args
        else:
            into.append(names.get(word, {'true': 1, 'false': 0}.get(word)) if re.match(r'[a-z]', word) else int(word))
    return args


# ---- forms


def form_of(constraint):
    """The form of the rule `lin`, if it has one."""
    name, args = constraint
    if name.endswith('_reif') and name != 'set_in_reif':
        *args, switch = args
        return form_of(Constraint(name[:-5], args))._replace(switch=switch)
    if name in SIMPLE:
        by, test, bound = SIMPLE[name]
        return Form(list(zip(by, args)), test, bound)
    if name in ('int_lin_eq', 'int_lin_le', 'int_lin_ne', 'bool_lin_le'):
        return Form(list(zip(*args[:2])), {'eq': '=', 'le': '<=', 'ne': '!='}[name[-2:]], args[2])
    if name == 'bool_lin_eq':
        return Form([*zip(*args[:2]), (-1, args[2])], '=', 0)
    if name == 'bool_clause':
        return Form([*((-1, a) for a in args[0]), *((1, b) for b in args[1])], '<=', len(args[1]) - 1)
    if name in ('bool_and', 'bool_or', 'array_bool_and', 'array_bool_or'):
        inputs = args[0] if name.startswith('array') else args[:2]
        return Form([(-1, a) for a in inputs], '<=', -len(inputs) if name.endswith('and') else -1, args[-1])
    return None


SIMPLE = {
    **dict.fromkeys(('int_eq', 'bool_eq', 'bool2int'), ((1, -1), '=', 0)),
    'int_ne': ((1, -1), '!=', 0),
    **dict.fromkeys(('int_le', 'bool_le'), ((1, -1), '<=', 0)),
    **dict.fromkeys(('int_lt', 'bool_lt'), ((1, -1), '<=', -1)),
    'bool_not': ((1, 1), '=', 1),
    'int_plus': ((1, 1, -1), '=', 0),
}


def variables_of(places):
    return [term for _, term in places if isinstance(term, Var)]


def compares(form, total):
    return {'<=': total <= form.bound, '=': total == form.bound, '!=': total != form.bound}[form.test]


# ---- rows


class Part:
    """What a variable weighs: a coefficient times its value, and what is listed for the value from the number low on."""

    def __init__(self, coefficient=0, low=0, listed=None):
        self.coefficient, self.low, self.listed = coefficient, low, listed

    def listed_at(self, value):
        """None where the value is barred."""
        if self.listed is None:
            return 0
        return self.listed[value - self.low] if 0 <= value - self.low < len(self.listed) else None

    def at(self, value):
        return plus(self.listed_at(value), self.coefficient * value)


class Table(NamedTuple):
    """The places of a table, its rows, and what each of these weighs, or None where it is barred."""

    places: list
    rows: list
    weights: list


def plus(weight, more):
    """Both together; None where either is barred."""
    return None if weight is None or more is None else weight + more


def is_within(number, limit=LIMIT):
    return -limit <= number <= limit


class Row:
    def __init__(self):
        self.bound, self.parts, self.tables, self.left = 0, {}, {}, MOST_WEIGHTS

    def part(self, var):
        """The part of the variable, which has one from now on."""
        return self.parts.setdefault(var, Part())

    def take_part(self, var):
        """The part that the variable had; it weighs 0 now."""
        part, self.parts[var] = self.part(var), Part()
        return part

    def raise_bound(self, amount):
        self.bound += amount
        demand(is_within(self.bound))

    def take_weights(self, count):
        demand(count <= self.left)
        self.left -= count

    def relist(self, var, low, count, entry):
        """Lists for each of so many numbers from low on what `entry` makes of it and of what was listed for it."""
        self.take_weights(count)
        part = self.part(var)
        listed = [entry(value, part.listed_at(value)) for value in range(low, low + count)]
        demand(all(weight is None or is_within(weight) for weight in listed))
        self.parts[var] = Part(part.coefficient, low, listed)

    def begun(self, number, table, sets):
        """The part of the table with this number, which has one from now on."""
        if number not in self.tables:
            width = len(table.args[0])
            rows = [table.args[1][start : start + width] for start in range(0, len(table.args[1]), width)]
            self.tables[number] = Table(table.args[0], rows, [0 if may_be(table.args[0], row, sets) else None for row in rows])
        return self.tables[number]

    def reweigh(self, number, column, more):
        """Each row of the table weighs as much more as `more` says of its entry in the column, counted from 0."""
        places, rows, weights = self.tables[number]
        self.take_weights(len(rows))
        raised = [plus(weight, more(row[column])) for weight, row in zip(weights, rows)]
        demand(all(weight is None or is_within(weight) for weight in raised))
        self.tables[number] = Table(places, rows, raised)

    def terms(self):
        """How many terms of those that all derived constraints together may have."""
        listed = sum(len(part.listed) for part in self.parts.values() if part.listed is not None)
        return len(self.parts) + listed + sum(1 + len(table.rows) * len(table.places) for table in self.tables.values())

    def slack(self, values):
        """By how much all weigh less than they may at these values; None where something is barred."""
        total = 0
        for var, part in self.parts.items():
            total = plus(total, part.at(values[var.number - 1]))
        for places, rows, weights in self.tables.values():
            there = [value_of(place, values) for place in places]
            total = plus(total, next((weight for row, weight in zip(rows, weights) if row == there), None))
        return plus(self.bound, None if total is None else -total)

    def is_met(self, sets):
        """Whether the rule `row` is met, by the least weights on these sets."""
        total = self.bound
        for weights in self.weights_on(sets):
            there = [weight for weight in weights if weight is not None]
            if not there:
                return True
            total -= min(there)
        return total < 0

    def weights_on(self, sets):
        """For each part what it may weigh."""
        for var, part in self.parts.items():
            yield [part.at(value) for value in sets[var.number - 1]]
        for places, rows, weights in self.tables.values():
            yield [weight for row, weight in zip(rows, weights) if may_be(places, row, sets)]


def value_of(term, values):
    return values[term.number - 1] if isinstance(term, Var) else term


def may_be(places, row, sets):
    """Whether each place may have its entry of the row."""
    return all(entry in sets[place.number - 1] if isinstance(place, Var) else entry == place for place, entry in zip(places, row))


# ---- lines


def word(text, low, high):
    """A number in its only spelling, between these."""
    demand(re.fullmatch(r'0|-?[1-9][0-9]{0,18}', text), 31)
    demand(low <= int(text) <= high, 31)
    return int(text)


def number_of(text):
    """The number of a constraint, a variable or a column."""
    return word(text, 1, 10**18 - 1)


def multiplier_of(text):
    return word(text, -(10**12), 10**12)


def pairs_of(words):
    demand(len(words) % 2 == 0, 31)
    return [(multiplier_of(k), number_of(c)) for k, c in zip(words[::2], words[1::2])]


def items_of(words):
    """The items of a row, each its letter and its numbers."""
    items = []
    for text in words:
        if text in ITEMS:
            items.append([text])
        else:
            demand(items, 31)
            items[-1].append(text)
    return [(letter, ITEMS[letter](numbers)) for letter, *numbers in items]


def priced(words, fixed):
    """So many numbers that name things, then the first value and prices."""
    demand(len(words) > fixed, 31)
    return [*map(number_of, words[:fixed]), word(words[fixed], -VALUE, VALUE), [multiplier_of(it) for it in words[fixed + 1 :]]]


def two(words):
    demand(len(words) == 2, 31)
    return [number_of(it) for it in words]


ITEMS = {'l': lambda words: [pairs_of(words)], 'p': lambda words: priced(words, 1), 'm': two, 't': lambda words: priced(words, 2), 'w': two}


class Head:
    """The constraints of a file and those that lines derive, one after another."""

    def __init__(self, file):
        self.sets, self.constraints, self.own, self.terms = file.sets, list(file.constraints), len(file.constraints), 0

    def constraint(self, number):
        demand(number <= len(self.constraints), 41)
        return self.constraints[number - 1]

    def read(self, line):
        """Derives the constraint of the line, and answers it with those that it cites."""
        words = line.split(' ')
        demand(len(words) >= 3 and words[0] == 'c' and words[1] in LINES and words[2] == ';', 31)
        constraint, cited, terms = getattr(self, LINES[words[1]])(words[3:])
        demand(self.terms + terms <= MOST_TERMS)
        self.terms += terms
        self.constraints.append(constraint)
        return constraint, cited

    # -- a sum

    def usable_form(self, k, number):
        """The form of the constraint with this number, where it may be multiplied so."""
        form = form_of(self.constraint(number))
        demand(form is not None and form.switch is None and (form.test == '=' and k != 0 or form.test == '<=' and k >= 1))
        return form

    def sum(self, words):
        pairs, by, bound = pairs_of(words), {}, 0
        for k, number in pairs:
            form = self.usable_form(k, number)
            bound += k * form.bound
            for coefficient, term in form.places:
                if isinstance(term, Var):
                    by[term] = by.get(term, 0) + k * coefficient
                else:
                    bound -= k * coefficient * term
            demand(is_within(bound) and all(map(is_within, by.values())))
        kept = sorted((var, coefficient) for var, coefficient in by.items() if coefficient)
        demand(len(kept) <= LONGEST and all(is_within(number, VALUE) for number in (bound, *(coefficient for _, coefficient in kept))))
        constraint = Constraint('int_lin_le', [[coefficient for _, coefficient in kept], [var for var, _ in kept], bound])
        return constraint, [number for _, number in pairs], len(kept)

    # -- a parity

    def parity(self, words):
        odd, numbers, ones = set(), [number_of(it) for it in words], 0
        for number in numbers:
            name, args = self.constraint(number)
            demand(name in ('array_bool_xor', 'bool_xor', 'bool_not', 'bool_eq', 'int_eq', 'bool2int'))
            ones += name in ('array_bool_xor', 'bool_not')
            for term in args[0] if name == 'array_bool_xor' else args:
                if isinstance(term, Var):
                    demand(set(self.sets[term.number - 1]) <= {0, 1})
                    odd ^= {term}
                else:
                    demand(term in (0, 1))
                    ones += term
        demand(len(odd) < LONGEST)
        inputs = [*sorted(odd), *([1] if ones % 2 == 0 else [])]
        return Constraint('array_bool_xor', [inputs]), numbers, len(inputs)

    # -- all different

    def different(self, words):
        demand(words.count(';') == 1, 31)
        at = words.index(';')
        who, numbers = ([number_of(it) for it in part] for part in (words[:at], words[at + 1 :]))
        demand(all(var <= len(self.sets) for var in who), 49)
        pairs = [(Var(x), Var(y)) for i, x in enumerate(who) for y in who[i + 1 :]]
        demand(len(pairs) == len(numbers))
        for (x, y), number in zip(pairs, numbers):
            demand(tells_apart(self.constraint(number), x, y))
        return Constraint('fzn_all_different_int', [[Var(x) for x in who]]), numbers, len(who)

    # -- a row

    def row(self, words):
        row, items = Row(), items_of(words)
        for letter, numbers in items:
            self.add(row, letter, numbers)
        demand(len(row.parts) + len(row.tables) <= LONGEST)
        return Constraint('row', [row]), [number for item in items for number in cited_by(*item)], row.terms()

    def add(self, row, letter, numbers):
        {'l': self.multiples, 'p': self.prices, 'm': self.move, 't': self.columns, 'w': self.rows}[letter](row, *numbers)

    def multiples(self, row, pairs):
        for k, number in pairs:
            form = self.usable_form(k, number)
            for coefficient, term in form.places:
                if isinstance(term, Var):
                    row.part(term).coefficient += k * coefficient
                    demand(is_within(row.part(term).coefficient, COEFFICIENT))
                else:
                    row.raise_bound(-k * coefficient * term)
            row.raise_bound(k * form.bound)

    def prices(self, row, number, low, prices):
        name, args = self.constraint(number)
        demand(name in ('fzn_all_different_int', 'fzn_circuit', 'fzn_inverse') and len(prices) <= WIDEST)
        places, priced_values = args[0], range(low, low + len(prices))
        if name == 'fzn_all_different_int':
            values = [value for place in places for value in ([place] if isinstance(place, int) else self.sets[place.number - 1])]
            demand(all(value in priced_values for value in values))
        else:
            demand(low == 1 and len(prices) == len(places))
        price = dict(zip(priced_values, prices))
        for place in places:
            if isinstance(place, Var):
                row.relist(place, low, len(prices), lambda value, weight: plus(weight, price[value]))
            else:
                row.raise_bound(-price.get(place, 0))
        row.raise_bound(sum(prices) - (len(prices) - len(places)) * min([0, *prices]))

    def move(self, row, number, variable):
        constraint, y = self.constraint(number), Var(variable)
        if constraint.name == 'fzn_inverse':
            self.move_along(row, y, *constraint.args)
            return
        x, value_at = decided(constraint, y)
        self.demand_narrow(x)
        part, there = row.take_part(y), set(self.sets[y.number - 1])

        def moved(value, weight):
            result = value_at(value)
            return plus(weight, part.at(result) if result in there else None)

        self.relist_all(row, x, moved)

    def demand_narrow(self, x):
        values = self.sets[x.number - 1]
        demand(values and values[-1] - values[0] < WIDEST)

    def relist_all(self, row, x, entry):
        """Lists anew what is listed for each number from the least of x to its greatest."""
        values = self.sets[x.number - 1]
        row.relist(x, values[0], values[-1] - values[0] + 1, entry)

    def move_along(self, row, y, there, back):
        places, others = (back, there) if y in back else (there, back)
        demand(y in places and len(places) <= WIDEST)
        j, part = 1 + places.index(y), row.take_part(y)
        for i, place in enumerate(others, 1):
            more = part.at(i)
            if isinstance(place, Var):
                row.relist(place, 1, len(others), lambda value, weight: plus(weight, more) if value == j else weight)
            elif place == j:
                demand(more is not None)
                row.raise_bound(-more)

    def table(self, number):
        table = self.constraint(number)
        demand(table.name == 'fzn_table_int')
        return table

    def columns(self, row, number, column, low, prices):
        table = self.table(number)
        demand(len(prices) <= WIDEST and 1 <= column <= len(table.args[0]))
        price = dict(enumerate(prices, low))
        row.begun(number, table, self.sets)
        row.reweigh(number, column - 1, lambda entry: price.get(entry, 0))
        place = table.args[0][column - 1]
        if isinstance(place, Var):
            self.demand_narrow(place)
            self.relist_all(row, place, lambda value, weight: plus(weight, -price.get(value, 0)))
        else:
            row.raise_bound(price.get(place, 0))

    def rows(self, row, number, variable):
        table, y = self.table(number), Var(variable)
        demand(y in table.args[0])
        row.begun(number, table, self.sets)
        row.reweigh(number, table.args[0].index(y), row.part(y).at)
        row.take_part(y)

    # -- a step

    def judge(self, line):
        """Whether a step from a constraint is accepted, else its fault; None where that turns on a rule that is not `row`."""
        before, _, behind = line.partition(' ;')
        _, number, *rule = before.split(' ')
        literals = [re.fullmatch(r'(\d+)([<>=!]=)(-?\d+)', it).groups() for it in behind.split()]
        if not all(1 <= int(var) <= len(self.sets) for var, _, _ in literals):
            return 49
        if not 1 <= int(number) <= len(self.constraints):
            return 41
        sets = [list(values) for values in self.sets]
        for var, operator, k in literals:
            sets[int(var) - 1] = [value for value in sets[int(var) - 1] if not OPERATORS[operator](value, int(k))]
        constraint = self.constraints[int(number) - 1]
        if not all(sets):
            return 0
        if (constraint.name == 'row') != (rule == ['row']):
            return 42
        if rule != ['row']:
            return None
        return 0 if constraint.args[0].is_met(sets) else 42


LINES = {'lin': 'sum', 'xor': 'parity', 'alldiff': 'different', 'row': 'row'}


def cited_by(letter, numbers):
    return [number for _, number in numbers[0]] if letter == 'l' else numbers[:1]


def tells_apart(constraint, x, y):
    name, args = constraint
    if name == 'int_ne':
        lists = [args]
    elif name == 'int_lin_ne':
        lists = [args[1]] if len(args[0]) == 2 and args[0][0] == -args[0][1] != 0 and args[2] == 0 else []
    else:
        lists = {'fzn_all_different_int': args[:1], 'fzn_circuit': args[:1], 'fzn_inverse': args}.get(name, [])
    return any(terms[i] == x and terms[j] == y for terms in lists for i in range(len(terms)) for j in range(len(terms)) if i != j)


def decided(constraint, y):
    """The variable that decides y by the constraint, and what y is at each of its values."""
    name, args = constraint
    if re.fullmatch('array_(var_)?(int|bool)_element', name):
        index, entries, result = args
        demand(isinstance(index, Var) and result == y and not any(isinstance(it, Var) for it in entries))
        return index, lambda value: entries[value - 1] if 1 <= value <= len(entries) else None
    form = form_of(constraint)
    demand(form is not None)
    others = [var for var in variables_of(form.places) if var != y]
    demand(others and len(set(others)) == 1)
    if form.switch is not None:
        demand(form.switch == y and y not in variables_of(form.places))
        return others[0], lambda value: int(compares(form, weighed(form, others[0], value)))
    a = sum(coefficient for coefficient, term in form.places if term == y)
    demand(form.test == '=' and a != 0)

    def result(value):
        rest = form.bound - weighed(form, others[0], value)
        return rest // a if rest % a == 0 else None

    return others[0], result


def weighed(form, x, value):
    """The sum with this value for x, and 0 for each other variable."""
    return sum(coefficient * (term if not isinstance(term, Var) else value if term == x else 0) for coefficient, term in form.places)
