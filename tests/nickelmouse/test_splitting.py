"""Where an open cube is halved."""
import unittest

from nickelmouse.cubes import Literal
from nickelmouse.items import Span, Variable
from nickelmouse.joining import Whole
from nickelmouse.splitting import Ends, Opened, ends_of, split_of

VARIABLES = [Variable(number, f'v{number}', declared, Span(0, 1), False, False)
             for number, declared in enumerate(['0..9', None, '{1,4,8}', '5..5'], 1)]


def opened(*lines):
    """What lines of an open cube tell."""
    return Opened([line.encode() + b'\n' for line in lines])


class SplittingTest(unittest.TestCase):
    """The choice of a literal."""

    def test_ends(self):
        cases = [('0..9', (0, 9)), ('-5..-2', (-5, -2)), (None, (0, 1)), ('{1,4,8}', (1, 8)), ('{}', (1, 0)), ('{-3}', (-3, -3))]
        for declared, wanted in cases:
            self.assertEqual(ends_of(declared), wanted)

    def test_opened(self):
        found = []
        lines = [b'fzc 2\n', b'vars 1 cons 1\n', b's 1 2\n', b'i 1 lin ; 1<=3\n', b'r 1<=3 ; 1 2\n', b'r 1<=3 2>=1 ; 1\n', b's\n', b'r 1<']
        told = Opened(lines, found.append)
        self.assertEqual((found, told.units, list(told.newest)), ([b's 1 2\n', b's\n'], [b'1<=3'], [b'1<=3 2>=1']))

    def test_places(self):
        told = opened('r 1<=3 2>=1 ;', 'r 1>=3 3==4 ; 1', 'r 1!=5 2<=0 ; 1 2')
        self.assertEqual(told.places(), [(1, [3, 2, 5]), (2, [0, 0]), (3, [4])])

    def test_halving(self):
        ends = Ends(VARIABLES, [Literal(1, '>=', 2), Literal(1, '<=', 7)])
        self.assertEqual(ends.of(1), (2, 7))
        cases = [((), 4), ([3], 3), ([3, 3, 6], 3), ([1, 7, 9], 4), ([6, 2, 6], 6)]
        for places, value in cases:
            self.assertEqual(ends.halving(1, places), Literal(1, '<=', value))
        self.assertEqual(ends.halving(2), Literal(2, '<=', 0))
        self.assertIsNone(ends.halving(4))
        self.assertEqual(Ends([Variable(1, 'x', '-4..-1', Span(0, 1), False, False)]).halving(1), Literal(1, '<=', -3))

    def test_split(self):
        least = Whole(4, 1, 1, 'minimize', 1, (1,))
        every = Whole(4, 1, 1, 'satisfy', None, (3, 4))
        told = ['r 1<=3 1>=5 2>=1 ; 1', 'r 2<=0 3<=4 ; 1']
        cases = [
            # goal, lines, what is known, the literal
            (least, told, [], Literal(2, '<=', 0)),
            (least, told, [Literal(2, '>=', 1)], Literal(3, '<=', 4)),
            (least, [*told, 'r 2>=1 ; 1'], [], Literal(3, '<=', 4)),
            (least, [], [], Literal(2, '<=', 0)),
            (least, [], [Literal(2, '<=', 0), Literal(3, '>=', 8)], Literal(1, '<=', 4)),
            (every, told, [], Literal(3, '<=', 4)),
            (every, [], [], Literal(3, '<=', 4)),
            (every, told, [Literal(3, '>=', 8)], Literal(1, '<=', 4)),
            (every, told, [Literal(3, '>=', 8), Literal(1, '<=', 0), Literal(2, '<=', 0)], None),
        ]
        for whole, lines, known, wanted in cases:
            self.assertEqual(split_of(opened(*lines), Ends(VARIABLES, known), whole), wanted)
        self.assertEqual(split_of(opened(*told), Ends(VARIABLES), every, False), Literal(1, '<=', 4))
