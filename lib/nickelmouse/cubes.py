"""Cubes: parts of a search, each the file with bounds added behind its last constraint, in a tree whose halves resolve to what they halve.

Of a closed cube it is known which of its bounds its clause speaks of: a mask has bit k for the bound at depth k + 1."""
from dataclasses import dataclass

LARGEST = 10 ** 9


@dataclass(frozen=True)
class Literal:
    """`v<=k` or `v>=k` for the variable of a number."""
    variable: int
    sign: str
    value: int

    def negated(self):
        """What holds where it does not."""
        return Literal(self.variable, '>=', self.value + 1) if self.sign == '<=' else Literal(self.variable, '<=', self.value - 1)

    def text(self):
        """As a certificate spells it."""
        return b'%d%s%d' % (self.variable, self.sign.encode(), self.value)

    def item(self, variable):
        """The constraint item that states it of its variable."""
        if variable.declared is None:
            return f'constraint bool_eq({variable.name},{"true" if self.sign == ">=" else "false"}); '
        pair = f'{variable.name},{self.value}' if self.sign == '<=' else f'{self.value},{variable.name}'
        return f'constraint int_le({pair}); '

    def fits(self):
        """Whether a file may state it."""
        return abs(self.value) <= LARGEST


@dataclass(frozen=True)
class Closing:
    """The step that closes a cube, and the mask of the bounds whose negations its clause has."""
    step: int
    mask: int


class Cube:
    """A cube of the tree. The whole search is the one without a parent."""

    def __init__(self, parent=None, literal=None):
        self.parent, self.literal = parent, literal
        self.depth = 0 if parent is None else parent.depth + 1
        self.halves, self.closed, self.failures, self.budget = (), None, 0, None

    def split(self, literal):
        """Halves it, and gives both halves."""
        self.halves = (Cube(self, literal), Cube(self, literal.negated()))
        return self.halves

    def literals(self):
        """Its bounds, from the whole search down to it."""
        found, cube = [], self
        while cube.parent is not None:
            found.append(cube.literal)
            cube = cube.parent
        return found[::-1]

    def is_over(self):
        """Whether nothing is left to be searched in it, since it is closed or one that it is a part of."""
        cube = self
        while cube is not None:
            if cube.closed is not None:
                return True
            cube = cube.parent
        return False

    def other(self):
        """The other half of its parent."""
        first, second = self.parent.halves
        return second if first is self else first

    def steps(self):
        """The steps that close it, or as much of it as is closed."""
        if self.closed is not None:
            return [self.closed.step]
        return [step for half in self.halves for step in half.steps()]


def negations(literals, mask):
    """The negations of the literals that a mask names, each behind a space."""
    return b''.join(b' ' + literal.negated().text() for depth, literal in enumerate(literals) if mask >> depth & 1)


def close(cube, closing, joined):
    """Takes note that a cube is closed, and closes what follows: its parent, where both halves are closed, or where the clause does not
    speak of the bound that tells them apart."""
    cube.closed = closing
    while cube.parent is not None:
        parent, other, bit = cube.parent, cube.other(), 1 << cube.depth - 1
        if not closing.mask & bit:
            joined.delete(other.steps())
        elif other.closed is not None:
            mask, steps = (closing.mask | other.closed.mask) & ~bit, [closing.step, other.closed.step]
            closing = Closing(joined.derived(negations(parent.literals(), mask), steps), mask)
            joined.delete(steps)
        else:
            return
        cube = parent
        cube.closed = closing
