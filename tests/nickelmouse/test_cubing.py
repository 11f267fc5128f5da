"""The work on cubes: over slots that answer from a list."""
import contextlib
import io
import tempfile
import unittest

from nickelmouse.cubing import Cubing
from nickelmouse.files import Files
from nickelmouse.items import Span, Variable
from nickelmouse.joining import Joined, Whole
from nickelmouse.slots import Slots, end_of, how_ended

VARIABLES = [Variable(1, 'cost', '0..9', Span(0, 1), True, False), Variable(2, 'x', '0..9', Span(0, 1), True, False)]
TEXT = (b'constraint c; ', b'solve minimize cost;\n')


class Lines:
    """Stands for a file: the lines that were written."""

    def __init__(self):
        self.text = ''

    def write(self, text):
        self.text += text.decode()

    def flush(self):
        """All is there."""


class Ended:
    """Stands for a program that has ended."""

    def __init__(self):
        self.is_killed = False

    def poll(self):
        return 0

    def kill(self):
        self.is_killed = True


class Answers(Slots):
    """Slots whose searches have ended at once: what is asked of them, and what they answer, status and lines each."""

    def __init__(self, files, number, answers, fault=None):
        super().__init__(None, files, number)
        self.answers, self.asked, self.wrong = iter(answers), [], fault

    def started(self, task, words, said):
        with open(self.files.path(task.name('fzn')), encoding='utf-8') as file:
            text = file.read()
        self.asked.append((text[len(TEXT[0]):-len(TEXT[1])].strip(), words))
        self.status, *lines = next(self.answers)
        added = text.count('constraint') - 1
        if lines:
            lines = ['fzc 2', f'vars 2 cons {1 + added}', *lines]
            self.files.write(task.name('fzc'), ''.join(f'{line}\n' for line in lines).encode())
        said.write(b'in all 0.1 s, 7 nodes, 5 conflicts, 3 inferences, 1 solutions, 9 bytes of certificate\n')
        said.write(b'wrong\n' if self.status else b'')
        return Ended()

    def ended(self, task):
        self.going -= 1
        return self.status, self.files.read(task.name('said')).decode().strip()

    def fault(self, status, said):
        return self.wrong


class CubingTest(unittest.TestCase):
    """Cubes from the first to the answer."""

    def setUp(self):
        folder = tempfile.TemporaryDirectory()
        self.addCleanup(folder.cleanup)
        self.files = Files(folder.name)

    def worked(self, answers, other=None, nodes=None):
        """What a search leaves whose runs have these answers."""
        self.sink = Lines()
        joined = Joined(self.sink, Whole(2, 1, 1, 'minimize', 1, (1, 2)))
        cubing = Cubing(self.files, TEXT, VARIABLES, joined, ['-f'], 100, nodes)
        self.here = Answers(self.files, 1, answers)
        cubing.work([self.here if other is None else other], self.here, ['--hints', 'h'], lambda _: None)
        self.assertEqual(self.files.read('cube-1.fzn'), b'')
        return cubing

    def test_one_run(self):
        cubing = self.worked([(0, 's 3 1', 'i 1 lin ; 1>=3', 'r ; 1 2', 'e closed')])
        self.assertEqual(self.sink.text, 'fzc 2\nvars 2 cons 1\ns 3 1\ni 1 lin ; 1>=3\nr ; 1 2\nd 2\ne closed\n')
        self.assertEqual(self.here.asked, [('', ['-f', '--hints', 'h', '--nodes', '100', '--progress'])])
        self.assertEqual((cubing.closed, cubing.totals, cubing.wrong), (1, [7, 5, 3], None))

    def test_halves(self):
        """The first is left open; its halves are closed, with a better solution in the first of them."""
        self.worked([
            (0, 's 7 1', 'i 1 lin ; 1>=2', 'r 1>=2 ; 2', 'r 2<=4 1<=3 ; 2', 'e open'),
            (0, 's 3 0', 'i 1 lin ; 1>=3', 'i 2 lin ; 2<=4', 'r 1>=4 ; 2 3', 'r ; 4 1', 'e closed'),
            (0, 'i 2 lin ; 2>=5', 'i 4 lin ; 1<=2', 'r 2<=6 ; 1', 'r ; 2 3', 'e closed'),
        ])
        self.assertEqual([text for text, _ in self.here.asked],
                         ['', 'constraint int_le(x,4); constraint int_le(2,cost); constraint int_le(cost,6);',
                          'constraint int_le(5,x); constraint int_le(2,cost); constraint int_le(cost,2);'])
        self.assertEqual(self.sink.text.splitlines()[2:],
                         ['s 7 1', 'i 1 lin ; 1>=2', 'r 1>=2 ; 2', 'r 2<=4 1<=3 ; 2', 'd 2 4',
                          's 3 0', 'i 1 lin ; 1>=3', 'r 1>=4 2>=5 ; 7', 'r 2>=5 ; 8 6', 'd 7 8',
                          'r 2<=6 2<=4 ;', 'r 2<=4 ; 6 11', 'd 11', 'r ; 12 9', 'd 9 12', 'e closed'])

    def test_failures(self):
        """A run that fails is made again; after three failures the search ends."""
        closed = (0, 'i 1 lin ;', 'e closed')
        cases = [
            ([(-9,), closed], None),
            ([(0,), (0, 'i 1 lin ;'), closed], None),
            ([(5,), (5,), (5,)], (5, 'wrong')),
            ([(-9,), (-9,), (-9,)], (-9, 'wrong')),
            ([(2,)], (2, 'wrong')),
            ([(0, 'e open'), *[(-9,)] * 5], (5, 'wrong')),
        ]
        for answers, wrong in cases:
            cubing = self.worked(answers)
            self.assertEqual((cubing.wrong, cubing.queue.root.closed is None), (wrong, wrong is not None), answers)

    def test_slots_that_are_left_out(self):
        lost = Answers(self.files, 2, [(None,), (None,)], 'nobody there')
        with contextlib.redirect_stderr(io.StringIO()) as said:
            cubing = self.worked([(0, 'r 2<=4 1<=3 ;', 'e open'), (0, 'i 1 lin ;', 'e closed')], lost)
        self.assertEqual(said.getvalue().splitlines(), ['nobody there', 'no host is left: the rest is searched here'])
        self.assertIsNone(cubing.wrong)
        self.assertEqual((len(lost.asked), len(self.here.asked), cubing.slots), (2, 2, [self.here]))

    def test_nodes(self):
        """What was not used of a budget is there for others."""
        cubing = self.worked([(0, 'r 2<=4 1<=3 ;', 'e open')] * 3, nodes=15)
        self.assertEqual(([words[-2] for _, words in self.here.asked], cubing.left), (['15', '8', '1'], 0))
        self.assertTrue(self.sink.text.endswith('e open\n'))

    def test_ends(self):
        for text, wanted in ((b'fzc 2\ne closed\n', b'e closed\n'), (b'e open\n', b'e open\n'), (b'e open', b''), (b'', b''), (b'e\n', b'')):
            self.files.write('text', text)
            self.assertEqual(end_of(self.files.path('text')), wanted)

    def test_how_ended(self):
        for told, wanted in (((1, 'one\ntwo'), 'two'), ((-9, ''), 'killed by signal 9'), ((3, ''), 'status 3'), ((None, ''), 'no answer')):
            self.assertEqual(how_ended(*told), wanted)
