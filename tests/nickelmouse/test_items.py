"""Items: what fzncheck --items says of a file, and bytes that are blanked or replaced."""
import unittest

from nickelmouse.counts import Counts, counted
from nickelmouse.items import Span, blanked, parsed, replaced
from nickelmouse.running import Broken

TEXT = b"""int: k = 5; array [1..0] of set of int: none = [];
var 0..9: x :: output_var; var {1,3}: y; var int: z; var bool: b = true;
var 0..3: same = x;
array [1..3] of var 0..5: q = [x,3,y];
constraint int_le(3,x);
constraint
  int_lin_eq([1,1],[x,y],k) :: defines_var(y); % constraint
constraint fzn_all_different_int(q);
solve minimize k;
"""
PRINTED = """parameter k bytes 1..11
parameter none bytes 13..50
var 1 x int 0..9 bytes 52..77 output
var 2 y int {1,3} bytes 79..91 defined
var 3 z int -1000000000..1000000000 bytes 93..103
var 4 b bool bytes 105..123
var 5 same int 0..3 bytes 125..143
array q bytes 145..182 : 1 =3 2
constraint 1 int_le line 5 column 1 bytes 184..206 : 1
constraint 2 int_lin_eq line 6 column 1 bytes 208..264 defines 2 : 1 2
constraint 3 fzn_all_different_int line 8 column 1 bytes 279..314 : q
constraint 4 bool_eq line 2 column 54 bytes 105..123 : 4
constraint 5 int_eq line 3 column 1 bytes 125..143 : 5 1
constraint 6 set_in line 4 column 1 bytes 145..182 : 1
constraint 7 set_in line 4 column 1 bytes 145..182 :
constraint 8 set_in line 4 column 1 bytes 145..182 : 2
search input_order indomain_min : 1 2
goal minimize constant 5 bytes 316..332
unbounded z bytes 97..99
sets none bytes 29..38
constant 5 bytes 331..331
end parameters 2 variables 5 arrays 1 constraints 8 mended 3
"""


class ItemsTest(unittest.TestCase):
    """What the lines say."""

    def setUp(self):
        self.items = parsed(PRINTED)

    def test_bytes(self):
        spans = [(self.items.variables[0].span, b'var 0..9: x :: output_var;'),
                 (self.items.arrays['q'].span, b'array [1..3] of var 0..5: q = [x,3,y];'),
                 (self.items.constraints[2].span, b'constraint fzn_all_different_int(q);'), (self.items.goal.span, b'solve minimize k;')]
        spans += zip([mend.span for mend in self.items.mends], [b'int', b'set of int', b'k'])
        for span, text in spans:
            self.assertEqual(span.of(TEXT), text)

    def test_counts(self):
        """The objective is a number where it is a variable."""
        objective = PRINTED.replace('goal minimize constant 5', 'goal maximize 2')
        self.assertEqual(counted(PRINTED), Counts('minimize', 5, 8, 3, None))
        self.assertEqual(counted(objective), Counts('maximize', 5, 8, 3, 2))
        self.assertEqual(counted(PRINTED.replace('goal minimize constant 5', 'goal satisfy')), Counts('satisfy', 5, 8, 3, None))

    def test_annotated(self):
        self.assertEqual((self.items.annotated, self.items.arrays['q'].output), ([1, 2], False))

    def test_variables(self):
        self.assertEqual([(one.number, one.name, one.declared, one.output, one.defined) for one in self.items.variables], [
            (1, 'x', '0..9', True, False), (2, 'y', '{1,3}', False, True), (3, 'z', '-1000000000..1000000000', False, False),
            (4, 'b', None, False, False), (5, 'same', '0..3', False, False)])

    def test_constraints(self):
        self.assertEqual([one.number for one in self.items.stated()], [1, 2, 3])
        self.assertEqual([one.arguments for one in self.items.constraints[:4]], [(1,), (1, 2), ('q',), (4,)])
        self.assertEqual(self.items.constraints[1].defines, 2)
        self.assertEqual(self.items.variables_of(['q', 4]), {1, 2, 4})

    def test_equal_variables(self):
        self.assertEqual(self.items.equals(), {5: 1})

    def test_goals(self):
        self.assertEqual((self.items.goal.word, self.items.goal.variable, self.items.goal.constant), ('minimize', None, 5))
        self.assertEqual(parsed('var 1 x int 0..1 bytes 1..2\ngoal maximize 1 bytes 3..4\nend parameters 0 variables 1 arrays 0 constraints 0 '
                                'mended 0\n').goal.variable, 1)

    def test_names(self):
        self.assertEqual(self.items.fresh('x'), 'x_2')
        self.assertEqual([self.items.fresh(name) for name in ('none', 'q', 'free')], ['none_2', 'q_2', 'free'])

    def test_what_is_never_said(self):
        last = 'end parameters 2 variables 5 arrays 1 constraints 8 mended 3\n'
        for wrong in ('', PRINTED.replace(last, ''), PRINTED.replace('mended 3', 'mended 2'), 'hello\n' + PRINTED, PRINTED + PRINTED,
                      PRINTED.replace('bytes 1..11', 'bytes 1'), PRINTED.replace('goal minimize constant 5 bytes 316..332\n', '')):
            with self.assertRaises(Broken):
                parsed(wrong)


class BytesTest(unittest.TestCase):
    """Bytes that make room for others."""

    def test_blanks_keep_every_place(self):
        text = b'ab\ncd\nef'
        self.assertEqual(blanked(text, [Span(6, 7), Span(1, 5)]), b'a \n  \n f')
        self.assertEqual(blanked(text, []), text)

    def test_replaced(self):
        self.assertEqual(replaced(b'abcdef', [(Span(4, 5), b'XY'), (Span(1, 1), b'-'), (Span(1, 2), b'')]), b'a-cdXYf')


if __name__ == '__main__':
    unittest.main()
