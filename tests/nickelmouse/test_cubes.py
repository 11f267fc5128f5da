"""Cubes: their literals, their items, and what follows where one is closed."""
import unittest

from nickelmouse.cubes import Closing, Cube, Literal, close, negations
from nickelmouse.items import Span, Variable

INTEGER = Variable(1, 'x', '0..9', Span(0, 1), True, False)
BOOLEAN = Variable(2, 'b', None, Span(0, 1), False, False)


class Steps:
    """Stands for a joined certificate: what is derived and what is deleted."""

    def __init__(self):
        self.derivations, self.deleted = [], []

    def derived(self, literals, steps):
        self.derivations.append((literals, list(steps)))
        return 100 + len(self.derivations)

    def delete(self, steps):
        self.deleted += steps


class CubesTest(unittest.TestCase):
    """A tree of cubes."""

    def test_literals(self):
        cases = [
            (Literal(1, '<=', 5), INTEGER, b'1<=5', b'1>=6', 'constraint int_le(x,5); '),
            (Literal(1, '>=', -3), INTEGER, b'1>=-3', b'1<=-4', 'constraint int_le(-3,x); '),
            (Literal(2, '<=', 0), BOOLEAN, b'2<=0', b'2>=1', 'constraint bool_eq(b,false); '),
            (Literal(2, '>=', 1), BOOLEAN, b'2>=1', b'2<=0', 'constraint bool_eq(b,true); '),
        ]
        for literal, variable, text, negated, item in cases:
            self.assertEqual((literal.text(), literal.negated().text(), literal.item(variable)), (text, negated, item))
            self.assertEqual(literal.negated().negated(), literal)

    def test_numbers_that_no_file_has(self):
        self.assertTrue(Literal(1, '<=', 10 ** 9).fits())
        self.assertFalse(Literal(1, '<=', -10 ** 9 - 1).fits())

    def test_negations(self):
        literals = [Literal(1, '<=', 5), Literal(2, '>=', 1), Literal(1, '>=', 3)]
        self.assertEqual(negations(literals, 0b101), b' 1>=6 1<=2')
        self.assertEqual(negations(literals, 0), b'')

    def test_both_halves(self):
        root, steps = Cube(), Steps()
        left, right = root.split(Literal(1, '<=', 5))
        close(left, Closing(3, 1), steps)
        self.assertFalse(root.is_over() or right.is_over())
        close(right, Closing(7, 1), steps)
        self.assertEqual((steps.derivations, steps.deleted, root.closed), ([(b'', [7, 3])], [7, 3], Closing(101, 0)))

    def test_nested(self):
        root, steps = Cube(), Steps()
        left, right = root.split(Literal(1, '<=', 5))
        low, high = left.split(Literal(2, '<=', 0))
        self.assertEqual(high.literals(), [Literal(1, '<=', 5), Literal(2, '>=', 1)])
        close(right, Closing(3, 1), steps)
        close(low, Closing(4, 0b10), steps)
        close(high, Closing(5, 0b11), steps)
        self.assertEqual(steps.derivations, [(b' 1>=6', [5, 4]), (b'', [101, 3])])
        self.assertEqual(steps.deleted, [5, 4, 101, 3])
        self.assertEqual(root.closed, Closing(102, 0))

    def test_a_clause_that_does_not_speak_of_the_half(self):
        root, steps = Cube(), Steps()
        left, right = root.split(Literal(1, '<=', 5))
        low, high = left.split(Literal(2, '<=', 0))
        ours, others = high.split(Literal(1, '<=', 3))
        close(ours, Closing(3, 0b101), steps)
        close(low, Closing(4, 0b01), steps)
        self.assertTrue(others.is_over() and high.is_over() and left.is_over())
        self.assertFalse(right.is_over())
        self.assertEqual((steps.derivations, steps.deleted), ([], [3]))
        close(right, Closing(5, 0), steps)
        self.assertEqual((steps.deleted, root.closed), ([3, 4], Closing(5, 0)))
