"""Mending: the bytes that a compiled file gets in the place of others."""
import unittest

from nickelmouse.edits import edits_of, unbounded
from nickelmouse.items import parsed, replaced
from test_items import PRINTED, TEXT


class MendingTest(unittest.TestCase):
    """A file with one of each."""

    def test_every_kind(self):
        items = parsed(PRINTED)
        self.assertEqual(unbounded(items), ['z'])
        text = replaced(TEXT, edits_of(items, {'z': '-7..7'}))
        self.assertEqual(text.count(b'\n'), TEXT.count(b'\n'))
        for line in (b'array [1..0] of int: none = [];', b'var -7..7: z;', b'q = [x,3,y]; var 5..5: nickelmouse_objective; \n',
                     b'solve minimize nickelmouse_objective;'):
            self.assertIn(line, text)

    def test_without_bounds(self):
        self.assertIn(b'var int: z;', replaced(TEXT, edits_of(parsed(PRINTED), {})))

    def test_a_file_without_declarations(self):
        text = b'% nothing\nconstraint int_le(1,2); solve maximize 7;\n'
        items = parsed('constraint 1 int_le line 2 column 1 bytes 11..33 :\ngoal maximize constant 7 bytes 35..51\nconstant 7 bytes 50..50\n'
                       'end parameters 0 variables 0 arrays 0 constraints 1 mended 1\n')
        self.assertEqual(replaced(text, edits_of(items, {})), b'% nothing\n var 7..7: nickelmouse_objective; constraint int_le(1,2); '
                         b'solve maximize nickelmouse_objective;\n')


if __name__ == '__main__':
    unittest.main()
