"""What a page is about, as far as it is known without the programs."""
import os
import tempfile
import unittest
from types import SimpleNamespace

from nickelmouse.files import Files
from nickelmouse.report.growth import Growth
from nickelmouse.report.pages import facts_of, verdict_of, words_again
from nickelmouse.report.state import SHOWN, State, bound_of
from nickelmouse.words import asked, default_jobs

ITEMS = """var 1 X_INTRODUCED_1_ int 0..50 bytes 1..9
goal minimize 1 bytes 11..20
end parameters 0 variables 1 arrays 0 constraints 0 mended 0
"""


class StateTest(unittest.TestCase):
    """An answer over the folder of its run."""

    def state(self, certificate, lines, **told):
        """The state of a run that has left this certificate, and printed these last lines."""
        folder = tempfile.TemporaryDirectory()
        self.addCleanup(folder.cleanup)
        files = Files(folder.name)
        files.write('model.fzn', b'')
        files.write('model.paths', b'X_INTRODUCED_1_\tcost\t\n')
        files.write('model.fzc', certificate)
        files.write('model.answer', b'x' * (SHOWN + 1))
        for name, text in told.get('files', {}).items():
            files.write(name, text)
        check = os.path.join(folder.name, 'check')
        with open(check, 'w', encoding='utf-8') as file:
            file.write(f"#!/bin/sh\ncat <<'END'\n{ITEMS}END\n")
        os.chmod(check, 0o755)
        return State(SimpleNamespace(check=check), files, Growth(folder.name), (told.get('values', []), told.get('bounds', [])), lines)

    def test_open(self):
        """The last bound is the one that was printed, also where it is of another worker's certificate."""
        line = 'cost = 9, at least 7 (22.3 % apart)'
        state = self.state(b'fzc 2\nvars 1 cons 0\ns 12\ns 9\ne open\n', (line, 'checked'), values=[(0.5, 10)])
        self.assertEqual((state.objective(), state.solution, state.is_closed()), ('cost', (9,), False))
        self.assertEqual(verdict_of(state, (line, 'checked')), line)
        facts = dict(facts_of(state))
        self.assertEqual((facts['best found'], facts['none below'], facts['solutions']), ('9', '7', '2'))
        self.assertEqual((len(state.answer()[0]), state.answer()[1]), (SHOWN, False))

    def test_closed(self):
        state = self.state(b'fzc 2\nvars 1 cons 0\ns 9\nr ;\ne closed\n', ('checked',))
        self.assertEqual(verdict_of(state, ('checked',)), 'cost = 9, and no solution is better')
        self.assertEqual(state.course.proved()[-1][1], 9)

    def test_others(self):
        """What other workers have found counts where it is no better than the answer, and the bound of a second certificate."""
        state = self.state(b'fzc 2\nvars 1 cons 0\ns 9\ne open\n', ('checked',), files={
            'hints': b's 20\ns 12\ns 8\ns 9', 'bound.fzc': b'fzc 2\nvars 1 cons 0\ni 1 lin ; 1>=4\ns 19\ne open\n'})
        self.assertEqual(sorted(value for _, value in state.course.values), [9, 12, 20])
        self.assertEqual(state.course.proved()[-1][1], 4)

    def test_nothing_found(self):
        state = self.state(b'fzc 2\nvars 1 cons 0\ne open\n', ('at least 3', 'checked'))
        self.assertEqual((verdict_of(state, ('at least 3', 'checked')), dict(facts_of(state))['none below']),
                         ('No solution was found before the search ended', '3'))
        self.assertEqual(state.known(), (None, None))

    def test_bounds(self):
        self.assertEqual([bound_of(declared, is_minimized) for declared in ('-5..7', '{3,-1,9}', '{}') for is_minimized in (True, False)],
                         [-5, 7, -1, 9, None, None])

    def test_workers(self):
        words = asked(['--jobs', str(default_jobs() + 1), 'my.fzn'])
        self.assertEqual(words_again(words), ['nickelmouse', '--jobs', str(default_jobs() + 1), 'my.fzn'])

    def test_words(self):
        words = asked(['-f', '--time-limit', '10m', '--bounds', '9', '--progress', 'my.mzn', '-d', 'data.dzn'])
        self.assertEqual(words_again(words, keep='FOLDER'), ['nickelmouse', '-f', '--bounds', '9', '--time-limit', '600', '--keep', 'FOLDER', '-d',
                                                             'data.dzn', 'my.mzn'])
