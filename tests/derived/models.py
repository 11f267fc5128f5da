"""Small models, drawn: the values of their variables, and their constraints as items and as tests of an assignment."""
import itertools


class Model:
    """A model: the values of its variables, and its constraints as items and as tests of an assignment."""

    def __init__(self, draw):
        self.sets = [values(draw) for _ in range(draw.choice([3, 3, 4]))]
        self.mode = draw.choice(['plain', 'plain', 'rowed', 'tabled', 'tabled'])
        drawn = [draw.choice(KINDS[self.mode])(draw, self.sets) for _ in range(draw.randint(2, 5))]
        declared = [f'var {{{",".join(map(str, it))}}}: v{i};' for i, it in enumerate(self.sets, 1)]
        if self.is_rowed and draw.random() < 0.5:
            drawn += switch(draw, self.sets)
            self.sets.append([0, 1])
            declared.append(f'var bool: v{len(self.sets)};')
        self.items, self.tests = zip(*drawn)
        self.text = '\n'.join([*declared, *(f'constraint {item};' for item in self.items), 'solve satisfy;\n'])
        self.solutions = self.meeting(range(1, len(self.items) + 1))

    @property
    def is_rowed(self):
        return self.mode != 'plain'

    def meeting(self, numbers):
        """The assignments within the declared sets that meet the constraints with these numbers."""
        tests = [self.tests[number - 1] for number in set(numbers)]
        return [a for a in itertools.product(*self.sets) if all(test(a) for test in tests)]


def values(draw):
    if draw.random() < 0.5:
        return [0, 1]
    low = draw.randint(-2, 2)
    return sorted(draw.sample(range(low, low + 4), draw.randint(1, 4)))


# ---- constraints: the item, and its test


def name(place):
    return f'v{place + 1}'


def places(draw, sets, count):
    return [draw.randrange(len(sets)) for _ in range(count)]


def linear(draw, sets):
    where = places(draw, sets, draw.randint(1, 4))
    by = [draw.choice([-3, -2, -1, 1, 2, 3]) for _ in where]
    word, holds = draw.choice([('le', int.__le__), ('eq', int.__eq__), ('ne', int.__ne__)])
    bound = draw.randint(-4, 6)
    terms = f'[{",".join(map(str, by))}],[{",".join(map(name, where))}],{bound}'
    return f'int_lin_{word}({terms})', lambda a: holds(sum(k * a[w] for k, w in zip(by, where)), bound)


def equation(draw, sets):
    """A sum of two variables that is a number, by which what the one weighs may move to the other."""
    x, y = draw.sample(range(len(sets)), 2)
    by = [draw.choice([-2, -1, 1, 1, 2]) for _ in range(2)]
    bound = by[0] * draw.choice(sets[x]) + by[1] * draw.choice(sets[y])
    return f'int_lin_eq([{by[0]},{by[1]}],[{name(x)},{name(y)}],{bound})', lambda a: by[0] * a[x] + by[1] * a[y] == bound


def switch(draw, sets):
    """A Boolean behind all other variables, which says how one of them compares with a number, and which number of 0 and 1 it is itself."""
    x, y, new = *places(draw, sets, 2), len(sets)
    k = draw.choice(sets[x]) + draw.choice([0, 0, -1, 1])
    word, holds = draw.choice([('eq', int.__eq__), ('ne', int.__ne__), ('le', int.__le__)])
    return [(f'int_{word}_reif({name(x)},{k},{name(new)})', lambda a: holds(a[x], k) == bool(a[new])),
            (f'bool2int({name(new)},{name(y)})', lambda a: a[new] == a[y])]


def compared(draw, sets):
    x, y = places(draw, sets, 2)
    word, holds = draw.choice([('le', int.__le__), ('lt', int.__lt__), ('eq', int.__eq__), ('ne', int.__ne__), ('ne', int.__ne__)])
    return f'int_{word}({name(x)},{name(y)})', lambda a: holds(a[x], a[y])


def apart(draw, sets):
    x, y = places(draw, sets, 2)
    k = draw.choice([-2, 1, 3])
    return f'int_lin_ne([{k},{-k}],[{name(x)},{name(y)}],0)', lambda a: k * a[x] - k * a[y] != 0


def different(draw, sets):
    where = places(draw, sets, draw.randint(2, 3))
    return f'fzn_all_different_int([{",".join(map(name, where))}])', lambda a: len({a[w] for w in where}) == len(where)


def addition(draw, sets):
    x, y = places(draw, sets, 2)
    total = draw.randint(0, 3)
    return f'int_plus({name(x)},{name(y)},{total})', lambda a: a[x] + a[y] == total


def element(draw, sets):
    index, value = places(draw, sets, 2)
    listed = [draw.choice([*sets[value], draw.randint(-2, 4)]) for _ in range(draw.randint(1, 4))]
    text = f'array_int_element({name(index)},[{",".join(map(str, listed))}],{name(value)})'
    return text, lambda a: 1 <= a[index] <= len(listed) and listed[a[index] - 1] == a[value]


def circuit(draw, sets):
    where = places(draw, sets, draw.randint(2, 3))
    return f'fzn_circuit([{",".join(map(name, where))}])', lambda a: is_circuit([a[w] for w in where])


def is_circuit(successors):
    """Whether these lead from place 1 through all places, once each, and back."""
    at, seen = 1, set()
    while at not in seen and 1 <= at <= len(successors):
        seen.add(at)
        at = successors[at - 1]
    return at == 1 and len(seen) == len(successors)


def inverse(draw, sets):
    count = draw.choice([2, 2, 3])
    there, back = entries(draw, sets, count), entries(draw, sets, count)
    text = f'fzn_inverse([{",".join(word for word, _ in there)}],[{",".join(word for word, _ in back)}])'

    def holds(a):
        first, second = [value(a) for _, value in there], [value(a) for _, value in back]
        return leads_back(first, second) and leads_back(second, first)
    return text, holds


def entries(draw, sets, count):
    """Places, of which a few are constants: how each is written, and its value."""
    return [(str(k), lambda a, k=k: k) if draw.random() < 0.15 else (name(w), lambda a, w=w: a[w])
            for w, k in zip(places(draw, sets, count), (draw.randint(1, count) for _ in range(count)))]


def leads_back(there, back):
    return all(1 <= j <= len(back) and back[j - 1] == i for i, j in enumerate(there, 1))


def table(draw, sets):
    """Rows, of which some stand twice and some have an entry that its place can't have; a place may be a constant, or as another one."""
    where = [draw.choice([*range(len(sets))] * 3 + [None]) for _ in range(draw.choice([1, 2, 2, 3, 3, 4]))]
    may = [[draw.randint(-2, 3)] if w is None else sets[w] for w in where]
    rows = [[draw.choice(it) if draw.random() < 0.93 else draw.randint(-3, 6) for it in may] for _ in range(draw.choice([0, 1, 2, 3, 4, 5, 6, 8]))]
    rows += [draw.choice(rows) for _ in range(draw.choice([0, 0, 0, 1, 2])) if rows]
    if rows and draw.random() < 0.3:
        rows.append(rows[0][:-1] + [draw.choice(may[-1])])
    written = [str(it[0]) if w is None else name(w) for w, it in zip(where, may)]
    text = f'fzn_table_int([{",".join(written)}],[{",".join(str(k) for row in rows for k in row)}])'
    return text, lambda a: [it[0] if w is None else a[w] for w, it in zip(where, may)] in rows


# What there is in a model without rows; for rows what prices are of, and what moves; and where there are tables.
KINDS = {
    'plain': [linear, linear, linear, compared, compared, apart, different, addition],
    'rowed': [linear, linear, equation, element, element, different, circuit, inverse],
    'tabled': [table, table, table, table, linear, linear, equation, element, different, inverse],
}
