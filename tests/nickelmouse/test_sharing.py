"""Sharing: the best solution, and the file of hints."""
import os
import tempfile
import threading
import unittest

from nickelmouse import sharing
from nickelmouse.counts import Counts
from nickelmouse.sharing import Shared


class SharedTest(unittest.TestCase):
    """Which solutions are taken, and what is written."""

    def setUp(self):
        self.folder = tempfile.TemporaryDirectory()
        self.path = os.path.join(self.folder.name, 'hints')

    def tearDown(self):
        self.folder.cleanup()

    def hints(self):
        """What stands in the file."""
        with open(self.path, 'rb') as file:
            return file.read()

    def test_better_ones(self):
        for maximizes, taken in ((False, [True, False, True, False, False]), (True, [True, False, False, False, True])):
            told = []
            shared = Shared(2, maximizes, self.path, True, lambda who, value: told.append((who, value)))
            lines = [b's 1 5\n', b's 2 5\n', b's 3 -4\n', b's 4\n', b's 5 6\n']
            self.assertEqual([shared.offer(line, 'one') for line in lines], taken)
            better = [line for line, is_taken in zip(lines, taken) if is_taken]
            self.assertEqual((self.hints(), shared.lines), (b''.join(better), better))
            self.assertEqual(told, [('one', int(line.split()[2])) for line in better])
            self.assertEqual(shared.best.values, tuple(map(int, better[-1].split()[1:])))
            os.remove(self.path)

    def test_lines_that_are_none(self):
        shared = Shared(1, False, self.path)
        self.assertEqual([shared.offer(line) for line in (b'', b's', b's \n', b's x\n', b'\xff')], [False] * 5)
        self.assertIsNone(shared.best)

    def test_certificate(self):
        shared = Shared(1, False, self.path, True)
        for line in (b's 9 0\n', b's 7 0\n', b's 5 0\n'):
            shared.offer(line)
        counts = Counts('minimize', 2, 3, 0, 1)
        self.assertEqual(shared.certificate(counts), b'fzc 2\nvars 2 cons 3\ns 9 0\ns 7 0\ns 5 0\ne open\n')
        self.assertEqual(shared.certificate(counts, [b's 8 0\n', b's 7 1\n']), b'fzc 2\nvars 2 cons 3\ns 8 0\ns 7 1\ns 5 0\ne open\n')

    def test_the_last_alone(self):
        shared = Shared(1, False, self.path)
        for line in (b's 9\n', b's 7\n'):
            shared.offer(line)
        self.assertEqual(shared.lines, [b's 7\n'])

    def test_room(self):
        """No more is written than fznsolve reads, and a file that can't be written hurts nobody."""
        most, sharing.MOST_BYTES = sharing.MOST_BYTES, 10
        try:
            shared = Shared(1, False, self.path)
            self.assertEqual([shared.offer(line) for line in (b's 9\n', b's 8\n', b's 7\n')], [True] * 3)
            self.assertEqual(self.hints(), b's 9\ns 8\n')
        finally:
            sharing.MOST_BYTES = most
        self.assertTrue(Shared(1, False, os.path.join(self.path, 'none')).offer(b's 9\n'))

    def test_many_at_once(self):
        """Whoever writes meanwhile, each line is whole and better than the one before."""
        shared = Shared(1, False, self.path)
        threads = [threading.Thread(target=lambda first=first: [shared.offer(b's %d\n' % value) for value in range(1000 + first, 0, -7)])
                   for first in range(8)]
        for thread in threads:
            thread.start()
        for thread in threads:
            thread.join()
        values = [int(line.split()[1]) for line in self.hints().splitlines()]
        self.assertEqual(values, sorted(set(values), reverse=True))
        self.assertEqual(shared.best.value, values[-1])


if __name__ == '__main__':
    unittest.main()
