"""Certificates of cubes, joined into one: what becomes of each line."""
import unittest

from nickelmouse.cubes import Closing, Cube, Literal, close
from nickelmouse.items import parsed
from nickelmouse.joining import Added, Joined, Spoilt, Whole, whole_of

ITEMS = """var 1 x int 0..9 bytes 11..20 output
var 2 b bool bytes 21..30
var 3 y int 0..9 bytes 31..40
var 4 z int 0..9 bytes 41..50
array xs bytes 51..60 output 1..3 : 1 =4 3
constraint 1 int_le line 1 column 1 bytes 61..70 : 1 3
constraint 2 int_eq line 1 column 1 bytes 41..50 : 4 3
goal minimize 4 bytes 71..80
end parameters 0 variables 4 arrays 1 constraints 2 mended 0
"""
SMALL = Whole(2, 3, 2, 'minimize', 1, (1,))
ALL = Whole(2, 3, 2, 'satisfy', None, (2,))
LOW, HIGH = Literal(2, '<=', 4), Literal(2, '>=', 5)


class Written:
    """Stands for a file: what was written."""

    def __init__(self):
        self.text = b''

    def write(self, text):
        self.text += text

    def lines(self):
        """The steps."""
        return self.text.decode().splitlines()[2:]


def lines_of(*steps, constraints=4, variables=2):
    """The lines of a certificate."""
    return [line.encode() + b'\n' for line in ('fzc 2', f'vars {variables} cons {constraints}', *steps)]


def joined(whole=SMALL, wanted=None):
    """A joined certificate, and what was written of it."""
    written = Written()
    return Joined(written, whole, wanted), written


class JoiningTest(unittest.TestCase):
    """Joins of small certificates."""

    def test_whole(self):
        self.assertEqual(whole_of(parsed(ITEMS)), Whole(4, 2, 1, 'minimize', 4, (1, 3)))

    def test_items(self):
        variables = parsed(ITEMS).variables
        added = Added((LOW, Literal(2, '>=', 1)), ((Literal(4, '<=', 3), 7),))
        self.assertEqual(added.items(variables), 'constraint bool_eq(b,false); constraint bool_eq(b,true); constraint int_le(z,3); ')
        self.assertEqual(added.meanings(), [(0, 1), (0, 2), (7, 0)])

    def test_steps(self):
        """Each kind of step, under the bound LOW of constraint 3, with a literal that step 1 gives as constraint 4."""
        into, written = joined()
        into.step(b'r 1<=7 ; 9\n')
        added = Added((LOW,), ((Literal(1, '<=', 7), 1),))
        cases = [
            # a step, what is written of it
            ('i 2 lin ; 1>=3', ['i 2 lin ; 1>=3']),
            ('i 5 rows ; 1>=2', ['i 3 rows ; 1>=2']),
            ('i 3 lin ; 2<=4', []),
            ('i 4 lin ; 1<=7', []),
            ('r 1>=3 1<=2 ; 1 2', ['r 1>=3 1<=2 ; 2 3']),
            ('r 1>=4 ; 5 3', ['r 1>=4 2>=5 ; 4']),
            ('r 1>=5 ; 4 6', ['r 1>=5 2>=5 ; 1 5']),
            ('s 6 1', ['s 6 1']),
            ('s 7 1', []),
            ('r 1>=6 1>=7 ; 9 8', ['r 1>=6 1>=7 ; 7 7']),
            ('d 3 4 8', []),
            ('d 2 5', ['d 3 4']),
            ('r ; 6 7', ['r 2>=5 ; 5 6']),
        ]
        closing = into.join(lines_of(*(step for step, _ in cases), 'e closed', constraints=5), added)
        wanted = [line for _, lines in cases for line in lines]
        self.assertEqual(written.lines(), ['r 1<=7 ; 9', *wanted, 'd 2 5 6 8'])
        self.assertEqual((closing, into.best, into.solutions), (Closing(10, 1), (6, 7), 1))

    def test_empty_clauses(self):
        """What closes a cube: an inference of the file's own, from a bound, from a given literal, and a solution without output."""
        given = Added((LOW,), ((Literal(1, '<=', 7), 1),))
        cases = [
            ('i 2 lin ;', SMALL, ['i 2 lin ;'], Closing(1, 0)),
            ('i 3 lin ;', SMALL, ['r 2>=5 ;'], Closing(1, 1)),
            ('i 4 lin ;', SMALL, ['r ; 1'], Closing(1, 0)),
            ('s 1 2', Whole(2, 3, 2, 'satisfy', None, ()), ['s 1 2'], Closing(1, 0)),
        ]
        for step, whole, wanted, closing in cases:
            into, written = joined(whole)
            self.assertEqual(into.join(lines_of(step, 'e closed', constraints=5), given), closing)
            self.assertEqual(written.lines(), wanted)

    def test_open(self):
        into, written = joined()
        self.assertIsNone(into.join(lines_of('i 1 lin ; 1<=3', 's 4 4', 'e open'), Added((LOW,))))
        into.end(False)
        self.assertEqual(written.lines(), ['i 1 lin ; 1<=3', 's 4 4', 'd 1', 'e open'])

    def test_both_halves(self):
        """Two halves and a better solution between them."""
        into, written = joined()
        root = Cube()
        low, high = root.split(LOW)
        close(low, into.join(lines_of('s 8 1', 'i 3 lin ; 2<=4', 'i 1 lin ; 2>=5', 'r ; 2 3', 'e closed'), Added((LOW,))), into)
        bound = into.bound()
        self.assertEqual(bound, ((Literal(1, '<=', 7), 1),))
        close(high, into.join(lines_of('s 9 6', 's 5 5', 'i 4 lin ; 1<=7', 'i 3 lin ; 2>=5', 'r ; 4 3 1', 'e closed', constraints=5),
                              Added((HIGH,), bound)), into)
        into.end(root.closed is not None)
        self.assertEqual(written.lines(), ['s 8 1', 'i 1 lin ; 2>=5', 'r 2>=5 ; 2', 'd 2', 's 5 5', 'r 2<=4 ; 1 1', 'r ; 6 3', 'd 3 6',
                                           'e closed'])

    def test_maximum(self):
        into, written = joined(Whole(2, 3, 2, 'maximize', 1, ()))
        into.join(lines_of('s 3 1', 's 2 1', 's 4 1', 'e open'), Added((LOW,)))
        self.assertEqual((written.lines(), into.best), (['s 3 1', 's 4 1', 'e open'][:2], (4, 2)))
        self.assertEqual(into.bound(), ((Literal(1, '>=', 5), 2),))

    def test_all_solutions(self):
        """A solution with the output of an earlier one is that one."""
        into, written = joined(ALL)
        into.join(lines_of('s 1 1', 's 2 2', 's 3 1', 'r 1<=4 ; 3 2', 'e open'), Added((LOW,)))
        self.assertEqual(written.lines(), ['s 1 1', 's 2 2', 'r 1<=4 ; 1 2'])
        self.assertEqual(into.solutions, 2)

    def test_enough(self):
        into, written = joined(ALL, 2)
        self.assertIsNone(into.join(lines_of('s 1 1', 's 2 2', 's 3 3', 'e open'), Added((LOW,))))
        into.found(b's 4 4\n')
        self.assertEqual((written.lines(), into.has_enough()), (['s 1 1', 's 2 2'], True))

    def test_stopped(self):
        """A join that is stopped closes nothing."""
        into, written = joined()
        into.is_stopped = True
        self.assertIsNone(into.join(lines_of('i 1 lin ; 1<=3', 'r ; 1', 'e closed'), Added((LOW,))))
        self.assertEqual(written.lines(), ['i 1 lin ; 1<=3', 'd 1'])

    def test_given(self):
        """Clauses of one literal that rest on no bound are kept, the strongest of each kind; the others go with the cube."""
        into, written = joined()
        into.join(lines_of('i 3 lin ; 2<=4', 'r 1<=8 ;', 'r 1<=6 ;', 'r 1<=7 ;', 'r 1>=2 ; 1', 'r 2!=3 ;', 'e open'), Added((LOW,)))
        self.assertEqual(into.given, {(1, '<='): (Literal(1, '<=', 6), 2)})
        self.assertEqual(written.lines()[-1], 'd 3 4 5')

    def test_bounds_that_no_file_states(self):
        into, _ = joined()
        into.found(b's -1000000000 1\n')
        self.assertEqual(into.bound(), ())

    def test_many_deletions(self):
        into, written = joined()
        into.delete(range(1, 250_001))
        self.assertEqual([len(line.split()) - 1 for line in written.lines()], [100_000, 100_000, 50_000])
        self.assertEqual(into.last, 3)

    def test_spoilt(self):
        cases = [
            [],
            [b'fzc 3\n', b'vars 2 cons 4\n', b'e open\n'],
            [b'fzc 2\n', b'vars 2 cons 3\n', b'e open\n'],
            [b'fzc 2\n', b'vars 2 cons 4 \n', b'e open\n'],
            lines_of(),
            lines_of('i 1 lin ; 1<=3'),
            lines_of('r 1<=3'),
            lines_of('r 1<=3 ; 5', 'e open'),
            lines_of('r 1<=3 ; x', 'e open'),
            lines_of('i x lin ; 1<=3', 'e open'),
            lines_of('i', 'e open'),
            lines_of('s 1', 'e open'),
            lines_of('s x y', 'e open'),
            lines_of('d 1', 'e open'),
            lines_of('', 'e open'),
            lines_of('q', 'e open'),
            lines_of('e closed'),
            lines_of('e ope'),
            lines_of('i 1 lin ; 1<=3')[:-1] + [b'i 1 lin ; 1<'],
        ]
        for lines in cases:
            with self.assertRaises(Spoilt, msg=lines):
                joined()[0].join(lines, Added((LOW,)))
