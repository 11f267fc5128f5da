"""Origins: the place in the model of a constraint that stands on a line of the compiled file, and what is told of a refusal."""
import unittest
from unittest import mock

from nickelmouse.origins import Origins, explained

TEXT = b"""array [1..2] of int: w = [1,2];
var 0..9: x;
var 0..9: y;
array [1..2] of var int: q = [x,y];
constraint int_pow(x,2,y);
constraint int_lin_le(w,q,5);
solve satisfy;
"""
TABLE = 'x\tx\tm.mzn|1|5|1|6|id|x;\ny\ty\tm.mzn|2|5|2|6|id|y;\n0\t0\tm.mzn|7|12|7|20|ca|pow;\n1\t1\t\n'
LARGE = b"""array [1..2] of int: w = [-3000000000,2];
int: most = 2000000000;
array [1..1] of int: unused = [5000000000];
var 0..9: x;
var 0..9: y;
array [1..2] of var int: q = [x,6000000000];
constraint int_lin_le(w,[x,y],5);
constraint int_le(x,most);
constraint int_le(x,4000000000);
constraint fzn_all_different_int(q);
solve satisfy;
"""
CONSTRAINTS = ('x\tx\tm.mzn|1|5|1|6|id|x;\ny\ty\tm.mzn|2|5|2|6|id|y;\n0\t0\tm.mzn|7|12|9|20|ca|forall;m.mzn|8|3|8|20|ac;m.mzn|8|3|8|9|bin|\'<=\';\n'
               '1\t1\tm.mzn|4|12|4|20|bin|\'<=\';\n2\t2\tm.mzn|5|12|5|20|bin|\'<=\';\n3\t3\tm.mzn|6|12|6|20|ca|all_different;\n')


class OriginsTest(unittest.TestCase):
    """Lines of a compiled file."""

    def test_constraints(self):
        origins = Origins('', TEXT, TABLE)
        self.assertEqual([origins.constraint_at(line) for line in range(1, 8)], [None, None, None, None, '0', '1', '2'])

    def test_refusals(self):
        self.assertIsNone(explained('', 'fault 19 Memory', TEXT, TABLE))
        self.assertEqual(explained('', 'line 1 column 1: fault 18 FileTooLong', TEXT, TABLE),
                         'the compiled file has more than 16777216 bytes: a smaller model, or running totals in the place of long sums')

    def test_large_numbers(self):
        """A number in a list of parameters comes from the first constraint that names the list: from the conjunct, where that has a loop."""
        with mock.patch('nickelmouse.origins.items_of_text', return_value=None):
            said = [explained('', f'line {line} column {column}: fault 8 LiteralRange', LARGE, CONSTRAINTS) for line, column in (
                (1, 27), (2, 13), (3, 32), (9, 21), (6, 33))]
        self.assertEqual([line.partition("'")[2] for line in said], [
            "array [1..2] of int: w = [-3000000000,2];', from m.mzn line 8: -3000000000 is less than -1000000000: take larger units or tighter bounds",
            "int: most = 2000000000;', from m.mzn line 4: 2000000000 is more than 1000000000: take larger units or tighter bounds",
            "array [1..1] of int: unused = [5000000000];': 5000000000 is more than 1000000000: take larger units or tighter bounds",
            "constraint int_le(x,4000000000);', from m.mzn line 5: 4000000000 is more than 1000000000: take larger units or tighter bounds",
            "array [1..2] of var int: q = [x,6000000000];', from m.mzn line 6: 6000000000 is more than 1000000000: take larger units or tighter bounds"])


if __name__ == '__main__':
    unittest.main()
