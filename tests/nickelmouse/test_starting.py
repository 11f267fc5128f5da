"""Plans as starts: the values in a file, and the constraints that fix them."""
import unittest

from nickelmouse.items import parsed
from nickelmouse.starting import fixed, last_solution, values_in, with_values

ITEMS = """parameter n bytes 1..10
var 1 x int 0..9 bytes 11..20 output
var 2 b bool bytes 21..30
var 3 y int 0..9 bytes 31..40
array xs bytes 41..50 : 1 =4 3
goal satisfy bytes 51..60
end parameters 1 variables 3 arrays 1 constraints 0 mended 0
"""


class StartingTest(unittest.TestCase):
    """Values by name."""

    def test_values(self):
        cases = [
            ('x = 5;', {'x': 5}),
            ('x = -5;\nb = true;\n', {'x': -5, 'b': 1}),
            ('xs = [1,2, -3];', {'xs': [1, 2, -3]}),
            ('xs = array1d(1..3,[1,2,3]);', {'xs': [1, 2, 3]}),
            ('xs = array2d(1..1, 1..3, [true,\n false, true]);', {'xs': [1, 0, 1]}),
            ('xs = [];', {'xs': []}),
            ('% old\nx = 5;\n', {'x': 5}),
            ('x = 5;\n----------\nx = 4;\n----------\n==========\n', {'x': 4}),
            ('{"x": 5, "b": true, "xs": [[1, 2], [3]], "_objective": 7}', {'x': 5, 'b': 1, 'xs': [1, 2, 3]}),
            ('', {}),
        ]
        for text, wanted in cases:
            self.assertEqual(values_in(text), wanted)

    def test_no_values(self):
        for text in ('x', 'x = ;', 'x = Off;', 'xs = [Off];', 'x = 5 y = 6;', '{"x": "Off"}', '{"x": 1.5}', '{', 'x = {1,2};'):
            with self.assertRaises(ValueError):
                values_in(text)

    def test_last_solution(self):
        self.assertEqual(last_solution('a----------b----------\n=='), 'b')
        self.assertEqual(last_solution('a'), 'a')

    def test_fixed(self):
        items = parsed(ITEMS)
        cases = [
            ({'x': 5}, {1: 5}),
            ({'b': 1, 'n': 3, 'z': 4}, {2: 1}),
            ({'xs': [7, 4, 8]}, {1: 7, 3: 8}),
            ({'xs': [7, 8]}, {}),
            ({'xs': 7, 'x': [7]}, {}),
        ]
        for values, wanted in cases:
            self.assertEqual(fixed(items, values), wanted)

    def test_with_values(self):
        text = b'.' * 50 + b'solve sat;'
        self.assertEqual(with_values(parsed(ITEMS), text, {2: 0, 1: 5}),
                         b'.' * 50 + b'constraint int_eq(x,5); constraint bool_eq(b,false); solve sat;')
