"""Small files that are drawn from seeds, with optimisations, satisfactions and files without a solution among them."""
import random

NAMES = 'abcdefgh'


class Drawn:
    """One file: its text, and the words for its search."""

    def __init__(self, seed):
        self.draw = random.Random(seed)
        count = self.draw.randint(4, 7)
        self.integers = [f'{name}' for name in NAMES[:count]]
        self.booleans = [f'p{number}' for number in range(self.draw.randint(2, 4))]
        self.most = self.draw.randint(3, 8)
        self.lines = [f'var {self.declared()}: {name}{self.output()};' for name in self.integers]
        self.lines += [f'var bool: {name}{self.output()};' for name in self.booleans]
        self.equal(count)
        for _ in range(self.draw.randint(count, 2 * count)):
            self.lines.append(f'constraint {self.draw.choice([self.sum, self.sum, self.switch, self.clause, self.apart, self.unequal])()};')
        goal, self.words = self.draw.choice([('minimize cost', []), ('maximize cost', []), ('satisfy', ['-a']), ('satisfy', ['-a']),
                                             ('satisfy', []), ('satisfy', ['-n', '3'])])
        if goal != 'satisfy':
            weights = [self.draw.randint(-5, 5) for _ in self.integers]
            reach = sum(map(abs, weights)) * self.most
            self.lines.insert(0, f'var {-reach}..{reach}: cost :: output_var;')
            self.lines.append(f'constraint int_lin_eq({[*weights, -1]},[{",".join([*self.integers, "cost"])}],0);')
        self.lines.append(f'solve {goal};')
        self.text = '\n'.join(self.lines) + '\n'

    def declared(self):
        """A set."""
        if self.draw.random() < 0.2:
            return '{%s}' % ','.join(map(str, sorted(self.draw.sample(range(self.most + 1), 3))))
        return f'0..{self.most}'

    def output(self):
        """The mark of a variable that is printed, or nothing."""
        return self.draw.choice([' :: output_var', ' :: output_var', ''])

    def equal(self, count):
        """A variable that its declaration says to equal another one: a constraint that no item states."""
        if self.draw.random() < 0.5:
            self.lines.append(f'var 0..{self.most}: same :: output_var = {self.integers[self.draw.randrange(count)]};')

    def some(self, names, least=2):
        """Some of the names, in an order that is drawn."""
        return self.draw.sample(names, self.draw.randint(least, min(4, len(names))))

    def sum(self):
        terms = self.some(self.integers)
        weights = [self.draw.choice([-3, -2, -1, 1, 2, 3]) for _ in terms]
        return f'{self.draw.choice(["int_lin_le", "int_lin_le", "int_lin_ne"])}({weights},[{",".join(terms)}],{self.draw.randint(-4, 12)})'

    def switch(self):
        one, other = self.some(self.integers)[:2]
        return f'{self.draw.choice(["int_le_reif", "int_eq_reif"])}({one},{other},{self.draw.choice(self.booleans)})'

    def clause(self):
        positive, negative = self.some(self.booleans, 1)[:2], self.some(self.booleans, 1)[:1]
        return f'bool_clause([{",".join(positive)}],[{",".join(negative)}])'

    def apart(self):
        return f'fzn_all_different_int([{",".join(self.some(self.integers))}])'

    def unequal(self):
        one, other = self.some(self.integers)[:2]
        return f'int_ne({one},{other})'
