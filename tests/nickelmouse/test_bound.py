"""Bounds of an objective: what `fzncheck --bound` says, and what is told of it."""
import os
import tempfile
import unittest

from nickelmouse.bound import Bound, bound_in, cut_from, lines_of, name_in_the_model, narrowed, tells_bounds, without_last_line
from nickelmouse.files import Files
from nickelmouse.running import Broken


class BoundTest(unittest.TestCase):
    """Lines of fzncheck."""

    def test_open(self):
        cases = [
            # what fzncheck prints, what a reader is told
            (b'total = 181, at least 170\n', 'cost = 181, at least 170 (6.1 % apart)'),
            (b'total = 181, at most 200\n', 'cost = 181, at most 200 (10.5 % apart)'),
            (b'total = 1000, at least 1000\n', 'cost = 1000, the best'),
            (b'total = 10000, at least 9999\n', 'cost = 10000, at least 9999 (0.1 % apart)'),
            (b'total = -4, at least -10\n', 'cost = -4, at least -10 (150.0 % apart)'),
            (b'total = 0, at least -10\n', 'cost = 0, at least -10 (10 apart)'),
            (b'at least 170\n', 'at least 170'),
            (b'at most -3\n', 'at most -3'),
        ]
        for line, wanted in cases:
            self.assertEqual(bound_in(line).line('cost'), wanted)

    def test_nothing_open(self):
        for line in (b'total = 181, the best\n', b'no objective\n', b'no solution\n'):
            self.assertIsNone(bound_in(line))

    def test_never_said(self):
        for line in (b'', b'==========\n', b'total = 181\n', b'total = 181, at least 170', b'total = x, at least 170\n', b'x = 1, no objective\n'):
            with self.assertRaises(Broken):
                bound_in(line)

    def test_narrowed(self):
        """The number that says more, of two bounds of one side."""
        low, high = Bound('x', 9, 'at least', 3), Bound('x', 9, 'at most', 20)
        for bound, other, number in ((low, Bound('x', 12, 'at least', 5), 5), (low, Bound(None, None, 'at least', 1), 3),
                                     (high, Bound('x', 2, 'at most', 15), 15), (high, Bound('x', 2, 'at most', 25), 20), (low, high, 3), (low, None, 3)):
            self.assertEqual(narrowed(bound, other), Bound('x', 9, bound.side, number))
        self.assertIsNone(narrowed(None, low))

    def test_statistic(self):
        self.assertEqual(Bound('total', 181, 'at least', -170).statistic(), '%%%mzn-stat: objectiveBound=-170\n')


class CutTest(unittest.TestCase):
    """The last line of an answer."""

    def test_text(self):
        for text, wanted in ((b'a\nb\n', (b'a\n', b'b\n')), (b'b\n', (b'', b'b\n')), (b'', (b'', b'')), (b'\n', (b'', b'\n'))):
            self.assertEqual(without_last_line(text), wanted)

    def test_file(self):
        with tempfile.TemporaryDirectory() as folder:
            path = os.path.join(folder, 'answer')
            for front in (b'', b'total = 3;\n----------\n'):
                with open(path, 'wb') as file:
                    file.write(front + b'total = 3, at least 2\n')
                self.assertEqual(cut_from(path), Bound('total', 3, 'at least', 2))
                with open(path, 'rb') as file:
                    self.assertEqual(file.read(), front)
            with open(path, 'wb'), self.assertRaises(Broken):
                cut_from(path)


class NameTest(unittest.TestCase):
    """How the model names an objective."""

    TABLE = b'X_INTRODUCED_1_\tx[2]\tm.mzn|1|1|1|1|vd;\nX_INTRODUCED_2_\tX_INTRODUCED_2_\t\ntotal\ttotal\tm.mzn|1|1|1|1|vd;\n'

    def test_names(self):
        cases = (('total', 'total'), ('X_INTRODUCED_1_', 'x[2]'), ('X_INTRODUCED_2_', 'objective'), ('X_INTRODUCED_3_', 'objective'), ('o', 'o'))
        for name, wanted in cases:
            self.assertEqual(name_in_the_model(name, self.TABLE), wanted)

    def test_lines(self):
        with tempfile.TemporaryDirectory() as folder:
            files = Files(folder)
            self.assertEqual(lines_of(None, files), [])
            self.assertEqual(lines_of(Bound(None, None, 'at least', 2), files), ['at least 2'])
            files.write('model.paths', self.TABLE)
            self.assertEqual(lines_of(Bound('X_INTRODUCED_1_', 4, 'at most', 5), files), ['x[2] = 4, at most 5 (25.0 % apart)'])


class HelpTest(unittest.TestCase):
    """Whether a checker knows the word."""

    def test_help(self):
        with tempfile.TemporaryDirectory() as folder:
            path = os.path.join(folder, 'check')
            for text, wanted in (('--core  list\n--bound  tell\n', True), ('--bounds  tell\n', False), ('', False)):
                with open(path, 'w', encoding='utf-8') as file:
                    file.write(f"#!/bin/sh\nprintf -- '{text}'\n")
                os.chmod(path, 0o755)
                self.assertEqual(tells_bounds(path), wanted)


if __name__ == '__main__':
    unittest.main()
