"""Certificates of version three for small models, drawn: good ones, and some that are spoilt."""
import itertools
import re

from checker import OPERATORS, Fault

WORDS = {
    'l': ('int_lin_le', 'int_lin_eq', 'int_plus'),
    'p': ('fzn_all', 'fzn_circuit', 'fzn_inverse'),
    'm': ('array_int_element', 'int_eq_reif', 'int_ne_reif', 'int_le_reif', 'bool2int', 'int_lin_eq', 'fzn_inverse'),
    't': ('fzn_table',),
    'w': ('fzn_table',),
}


def cited(draw, model, last, words):
    """A constraint up to this number: mostly a derived one or one of these kinds, where there is any."""
    fitting = [c for c in range(1, last + 1) if c > len(model.items) or model.items[c - 1].startswith(words)]
    if model.is_rowed:
        fitting = [c for c in fitting if c <= len(model.items)]
    return draw.choice(fitting) if fitting and draw.random() < 0.97 else draw.randint(1, last)


def text_of(model, number):
    return model.items[number - 1] if number <= len(model.items) else ''


def derivation(draw, last, model):
    """A line that may derive a constraint from those up to this number."""
    kind = 'row' if model.is_rowed and draw.random() < 0.8 else draw.choice(['lin', 'lin', 'lin', 'xor', 'alldiff'])
    if kind == 'row':
        return ' '.join(['c row ;', *(item(draw, last, model) for _ in range(draw.randint(1, 5 if model.mode == 'tabled' else 3)))])
    if kind == 'lin':
        sums = ('int_lin_le', 'int_lin_eq', 'int_le', 'int_lt', 'int_eq', 'int_plus')
        pairs = [f'{draw.choice([1, 1, 1, 2, 3, -1])} {cited(draw, model, last, sums)}' for _ in range(draw.randint(1, 3))]
        return f'c lin ; {" ".join(pairs)}'
    if kind == 'xor':
        return f'c xor ; {" ".join(str(cited(draw, model, last, ("int_eq",))) for _ in range(draw.randint(1, 3)))}'
    who = draw.sample(range(1, len(model.sets) + 1), draw.choice([2, 2, 3]))
    ids = [telling(draw, model, last, pair) for pair in itertools.combinations(who, 2)]
    return f'c alldiff ; {" ".join(map(str, who))} ; {" ".join(map(str, ids))}'


def item(draw, last, model):
    """What may add to a row: multiples of sums, prices of places or of columns, or what moves from a variable to others or to a table."""
    there = [kind for kind, words in WORDS.items() if any(it.startswith(words) for it in model.items)]
    kind = draw.choice(there if there and draw.random() < 0.97 else 'lpmtw')
    return {'l': multiples, 'p': prices, 'm': move, 't': columns, 'w': rows}[kind](draw, last, model)


def multiples(draw, last, model):
    pairs = [f'{draw.choice([1, 1, 2, 3, -1])} {cited(draw, model, last, WORDS["l"])}' for _ in range(draw.randint(1, 2))]
    return f'l {" ".join(pairs)}'


def prices(draw, last, model):
    which = cited(draw, model, last, WORDS['p'])
    text = text_of(model, which)
    low, count = (1, len(text.split('[')[1].split(']')[0].split(','))) if 'circuit' in text or 'inverse' in text else (-2, draw.choice([7, 8, 9]))
    return f'p {which} {low + (draw.random() < 0.1)} {some_prices(draw, count + (draw.random() < 0.1))}'


def some_prices(draw, count):
    return ' '.join(str(draw.randint(-3, 4)) for _ in range(count))


def move(draw, last, model):
    which = cited(draw, model, last, WORDS['m'])
    names = names_in(model, which)
    is_last = re.match('array_int_element|int_.._reif', text_of(model, which))
    named = None if not names else names[-1] if is_last else draw.choice(names)
    return f'm {which} {named if named and draw.random() < 0.95 else draw.randint(1, len(model.sets))}'


def names_in(model, which):
    return re.findall(r'v(\d+)', text_of(model, which))


def columns(draw, last, model):
    """Prices of a column, most of which some of its entries have."""
    which = cited(draw, model, last, WORDS['t'])
    width = len(text_of(model, which).split(']')[0].split(','))
    column = draw.randint(1, width) if draw.random() < 0.95 else draw.choice([0, width + 1])
    listed = some_prices(draw, draw.choice([0, 1, 2, 3, 4, 5]))
    return f't {which} {column} {draw.randint(-2, 2)} {listed}'.rstrip()


def rows(draw, last, model):
    which = cited(draw, model, last, WORDS['w'])
    names = names_in(model, which)
    return f'w {which} {draw.choice(names) if names and draw.random() < 0.95 else draw.randint(1, len(model.sets) + 1)}'


def telling(draw, model, last, pair):
    """A constraint that may tell the two variables apart."""
    names = [f'v{i}' for i in pair]
    fitting = [c for c, item in enumerate(model.items, 1) if '_ne(' in item or 'different' in item if all(it in item for it in names)]
    return draw.choice(fitting) if fitting and draw.random() < 0.9 else draw.randint(1, last)


def spoilt(draw, line):
    """The line with a word left out, doubled, or another in its place; mostly as it is."""
    words = line.split(' ')
    if draw.random() > 0.05:
        return line
    at = draw.randrange(2, len(words))
    words[at : at + 1] = draw.choice([[], [words[at]] * 2, [draw.choice(words)], [draw.choice(['-1', '0', '07', '', 'x', '1000000000001', '9' * 19])]])
    return ' '.join(words)


def literals(draw, model, fits):
    """A clause, mostly one that fits."""
    for _ in range(draw.choice([1, 30])):
        drawn = []
        for _ in range(draw.choice([0, 1, 1, 2])):
            place = draw.randrange(len(model.sets))
            drawn.append((place, draw.choice(list(OPERATORS)), draw.choice(model.sets[place]) + draw.choice([0, 0, -1, 1])))
        if fits(drawn):
            break
    return drawn


def is_true(clause, assignment):
    return any(OPERATORS[op](assignment[place], k) for place, op, k in clause)


def step_of(number, rule, clause):
    return ' '.join([f'i {number} {rule} ;', *(f'{p + 1}{op}{k}' for p, op, k in clause)])


class Certificate:
    """A certificate: its lines that derive, the clause of its step, and its bytes."""

    def __init__(self, draw, model, head):
        """The head, which is that of the model alone, derives what the lines say as far as they are good."""
        count = len(model.items)
        self.lines = [spoilt(draw, derivation(draw, count + j, model)) for j in range(draw.randint(1, 2))]
        self.head, self.derived, self.fault = head, [], None
        for line in self.lines:
            try:
                self.derived.append(head.read(line))
            except Fault as fault:
                self.fault = fault.number
                break
        rules = ['lin', 'lin', 'fixed', 'enum', f'hall {draw.randint(-1, 1)} {draw.randint(1, 3)}']
        rule = 'row' if self.lines[-1].startswith('c row') and draw.random() < 0.9 else draw.choice(rules)
        last = count + len(self.lines)
        is_seen = self.fault is None and rule == 'row' and draw.random() < 0.7
        fits = (lambda it: head.judge(step_of(last, rule, it)) == 0) if is_seen else lambda it: all(is_true(it, a) for a in model.solutions)
        self.clause = literals(draw, model, fits)
        self.step = step_of(last, rule, self.clause)
        counts = f'vars {len(model.sets)} cons {count} new {len(self.lines)}'
        self.text = '\n'.join(['fzc 3', counts, *self.lines, self.step, 'e open' if self.clause else 'e closed', ''])

    def verdict(self):
        """The line of the first fault and its number; 0 and 0 where there is none; None where that turns on another rule than `row`."""
        if self.fault is not None:
            return 3 + len(self.derived), self.fault
        number = self.head.judge(self.step)
        return None if number is None else (3 + len(self.lines), number) if number else (0, 0)
