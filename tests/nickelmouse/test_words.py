"""The words of nickelmouse."""
import contextlib
import io
import os
import unittest

from nickelmouse.words import asked


class WordsTest(unittest.TestCase):
    """Whom each word is for, and what is refused."""

    def test_words(self):
        words = asked(['-a', '-n', '2', '-f', '--derive', '-r', '7', 'model.mzn', '--nodes', '50', '--learn', 'plain', '--progress', '--bounds', '99', '--keep',
                       'there', '-D', 'n = 2', 'data.dzn', '-O3', '-I', 'beside'])
        self.assertEqual(words.solving, ['-a', '-f', '--derive', '--progress', '-n', '2', '-r', '7', '--nodes', '50', '--learn', 'plain'])
        self.assertEqual(words.compiling, ['-D', 'n = 2', '-O3', '-I', 'beside', 'model.mzn', 'data.dzn'])
        self.assertEqual((words.every, words.bounds, words.keep, words.is_flat, words.explaining), (True, 99, 'there', False, False))

    def test_defaults(self):
        words = asked(['m.fzn'])
        self.assertEqual((words.solving, words.nodes, words.try_nodes, words.is_flat), ([], 10_000_000, None, True))

    def test_words_of_minizinc(self):
        words = asked(['-i', '-s', '-v', '-p', '4', '-t', '2500', 'm.fzn'])
        self.assertEqual((words.solving, words.every, words.intermediate, words.statistics, words.time_limit),
                         (['--progress'], False, True, True, 2.5))

    def test_jobs(self):
        """As many as are asked for, in either word; else one for each processor, eight at most. And how many solutions a satisfaction wants."""
        for given, jobs, wanted in ((['--jobs', '1'], 1, 1), (['-p', '12', '-n', '3'], 12, 3), (['-a'], min(8, len(os.sched_getaffinity(0))), None)):
            words = asked([*given, 'm.fzn'])
            self.assertEqual((words.jobs, words.wanted), (jobs, wanted))

    def test_word_of_gecode(self):
        """As a file of parameters may have it for MiniZinc's own solver."""
        self.assertEqual(asked(['-node', '1', '-a', '-n', '2', 'm.fzn']).solving, ['-a', '-n', '2', '--nodes', '1'])

    def test_time_limits(self):
        for given, seconds in ((['--time-limit', '2m'], 120), (['--time-limit', '9', '-t', '500'], 0.5), (['-t', '0'], None), ([], None)):
            self.assertEqual(asked([*given, 'm.fzn']).time_limit, seconds)

    def test_names_like_words(self):
        self.assertEqual(asked(['--', '-m.mzn']).files, ['./-m.mzn'])

    def test_faulty(self):
        """Each is one line and status 3."""
        cases = [[], ['-a'], ['m.mzn', '-n'], ['m.mzn', '-n', '0'], ['m.mzn', '--bounds', '0'], ['m.mzn', '--bounds', '1000000001'],
                 ['m.mzn', '--bounds', 'x'], ['m.mzn', '--nodes', 'many'], ['m.mzn', '--nodes', '-1'], ['m.mzn', '--node', '1'], ['m.txt'],
                 ['--why', '-a', 'm.mzn'], ['--why', '-n', '2', 'm.mzn'], ['--try-nodes', '5', 'm.mzn'], ['m.fzn', 'd.dzn'], ['m.fzn', '-O3'],
                 ['m.mzn', '--learn', 'much'], ['m.mzn', '-t', 'x'], ['m.mzn', '-p', '0'], ['m.mzn', '--jobs', '1001'], ['--why', '--jobs', '2', 'm.mzn'], ['m.mzn', '--time-limit', '0'],
                 ['m.mzn', '--frob'], ['d.dzn']]
        for given in cases:
            said = io.StringIO()
            with contextlib.redirect_stderr(said), self.assertRaises(SystemExit) as end:
                asked(given)
            self.assertEqual((given, end.exception.code, said.getvalue().count('\n')), (given, 3, 1))


if __name__ == '__main__':
    unittest.main()
