"""Why: what fzncheck --core cites, when an answer is another one, and how constraints are left out."""
import unittest

from nickelmouse.items import parsed
from nickelmouse.running import Broken
from nickelmouse.why import Answer, Model, cited_in, explain

TEXT = b"""var 0..9: x = 3; % constraint
constraint int_le(x, % 2 line 2 column 1: constraint
5); constraint int_le(6,x);
constraint int_ne(x,4);
solve satisfy;
"""
PRINTED = """var 1 x int 0..9 bytes 1..16
constraint 1 int_le line 2 column 1 bytes 31..86 : 1
constraint 2 int_le line 3 column 5 bytes 88..110 : 1
constraint 3 int_ne line 4 column 1 bytes 112..134 : 1
constraint 4 int_eq line 1 column 1 bytes 1..16 : 1
goal satisfy bytes 136..149
end parameters 0 variables 1 arrays 0 constraints 4 mended 0
"""


def model():
    """The file above."""
    return Model(TEXT, parsed(PRINTED))


class ModelTest(unittest.TestCase):
    """A file without some of its constraints."""

    def test_texts(self):
        self.assertEqual([model().text_of(number) for number in (2, 3)], ['constraint int_le(6,x);', 'constraint int_ne(x,4);'])

    def test_left_out(self):
        left = model().only([part for part in model().parts if part.constraints == [3]])
        self.assertEqual(left, b'var 0..9: x = 3; % constraint\n' + b' ' * 52 + b'\n' + b' ' * 27 + b'\nconstraint int_ne(x,4);\nsolve satisfy;\n')

    def test_cited(self):
        """The numbers are those of the text that is left; the bytes of an item may look like a line."""
        whole = model()
        parts = [part for part in whole.parts if part.constraints != [2]]
        said = (b'1 line 2 column 1: ' + whole.text_of(1).encode() + b'\n2 line 4 column 1: constraint int_ne(x,4);\n'
                b'3 line 1 column 1: var 0..9: x = 3;\n3 of 3\n')
        self.assertEqual(cited_in(said, whole, whole.numbered(parts)), {1, 3, 4})

    def test_cited_otherwise(self):
        whole = model()
        for said in (b'1 line 3 column 5: ' + whole.text_of(1).encode() + b'\n1 of 3\n', b'1 line 2 column 1: constraint\n',
                     b'9 line 1 column 1: x\n'):
            with self.assertRaises(Broken):
                cited_in(said, whole, whole.numbered(whole.parts))


class AnswerTest(unittest.TestCase):
    """Answers beside the one that is explained."""

    def test_others(self):
        cases = [
            # answer, the end that is explained, direction, whether it is another one
            (Answer(None, False), Answer(None, False), 'satisfy', False),
            (Answer('some', False), Answer(None, False), 'satisfy', True),
            (Answer(None, True), Answer(None, False), 'satisfy', False),
            (Answer(7, True), Answer(None, False), 'minimize', True),
            (Answer(2, True), Answer(3, False), 'minimize', True),
            (Answer(3, True), Answer(3, False), 'minimize', False),
            (Answer(4, True), Answer(3, False), 'maximize', True),
            (Answer(None, True), Answer(3, False), 'maximize', False),
            (Answer(2, False), Answer(3, False), 'minimize', True),
        ]
        for answer, end, direction, wanted in cases:
            self.assertEqual(answer.is_other_than(end, direction), wanted, (answer, end, direction))


class Pretended:
    """In the place of the two programs: parts 1 and 2 clash, and so do 2 and 3; without one of each nothing is found, or something."""

    def __init__(self, decides):
        self.decides, self.nodes, self.try_nodes, self.numbers = decides, 1, 1, set()

    def answer(self, whole, parts, _):
        self.numbers = whole.needed_by(parts)
        if {1, 2} <= self.numbers or {2, 3} <= self.numbers:
            return Answer(None, False)
        return Answer('some', False) if self.decides else Answer(None, True)

    def core(self, whole, parts):
        return whole.parts_of({1, 2} if {1, 2} <= self.numbers else {2, 3}, parts)


class ExplainTest(unittest.TestCase):
    """Constraints that are left out, one after the other."""

    def explained(self, decides):
        whole, asked = model(), Pretended(decides)
        kept, undecided = explain(asked, whole, asked.answer(whole, whole.parts, 1))
        return [part.constraints for part in kept], [part.constraints for part in undecided]

    def test_minimal(self):
        self.assertEqual(self.explained(True), ([[1], [2]], []))

    def test_not_decided(self):
        kept, undecided = self.explained(False)
        self.assertEqual((kept, sorted(undecided)), ([[1], [2]], [[1], [2]]))


if __name__ == '__main__':
    unittest.main()
