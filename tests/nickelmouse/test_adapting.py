"""Adapting: what is tried next, by what came of it."""
import random
import unittest

from nickelmouse.adapting import LEAST_NODES, MOST, MOST_NODES, NODES, Chooser, Result, Trial


class ChooserTest(unittest.TestCase):
    """Trials and what is learned of them."""

    def setUp(self):
        self.draw = random.Random(1)
        self.chooser = Chooser(['a', 'b', 'c'], ['free'], 100, 0)

    def trial(self, kind='a'):
        return Trial(kind, 'free', 15, 500)

    def test_each_once(self):
        self.assertEqual({self.chooser.next(self.draw).kind for _ in range(3)}, {'a', 'b', 'c'})

    def test_the_best(self):
        """A kind that is better gets most trials, and the others some."""
        for _ in range(300):
            trial = self.chooser.next(self.draw)
            self.chooser.learn(trial, Result([], 10, 0.5, True), 0.01 if trial.kind == 'b' and self.draw.random() < 0.5 else 0)
        counts = {kind: record.trials for kind, record in self.chooser.kinds.items()}
        self.assertGreater(counts['b'], 150)
        self.assertTrue(all(count >= 5 for count in counts.values()), counts)

    def test_share(self):
        """Closed soon: far more is free; closed late: a little more; not closed: a little less; better: as much as before."""
        for nodes, is_closed, gain, wanted in ((10, True, 0, 24), (80, True, 0, 20), (400, True, 0, 16), (500, False, 0, 14), (10, True, 0.1, 15)):
            chooser = Chooser(['a'], ['free'], 100, 0)
            chooser.learn(self.trial(), Result([], nodes, 0.5, is_closed), gain)
            self.assertEqual(chooser.next(self.draw).wanted, wanted)
        for _ in range(100):
            self.chooser.learn(self.trial(), Result([], 0, 0.5, True), 0)
        self.assertEqual(self.chooser.kinds['a'].share, 1.0)

    def test_nodes(self):
        """More nodes where they take little time, fewer where they take much; and more of both after failures."""
        self.assertEqual(self.chooser.next(self.draw).nodes, NODES)
        self.chooser.learn(self.trial('b'), Result([], 10, 0.01, True), 0.1)
        for seconds, wanted in ((0.1, 2 * NODES), (0.4, 2 * NODES), (9, NODES)):
            self.chooser.learn(self.trial(), Result([], 500, seconds, False), 0.1)
            self.assertEqual(self.chooser.next(self.draw).nodes, wanted)
        for seconds, wanted in ((0, MOST_NODES), (99, LEAST_NODES)):
            for _ in range(20):
                self.chooser.learn(self.trial(), Result([], 500, seconds, False), 0.1)
            self.assertEqual(self.chooser.next(self.draw).nodes, wanted)
        for _ in range(100):
            self.chooser.learn(self.trial(), Result([], 0, 0.5, True), 0)
        self.assertEqual(self.chooser.seconds(), 0.5 * MOST)

    def test_long_starts(self):
        """Where each run takes long to start, a trial is meant to take longer."""
        for seconds in (3.0, 2.0, 4.0):
            self.chooser.learn(self.trial(), Result([], 0, seconds, True), 0.1)
        self.assertEqual(self.chooser.seconds(), 6.0)

    def test_exhausted(self):
        """After forty failures the first worker, after more the next; later where there were many trials before. The first at once of few units."""
        self.assertEqual([Chooser(['a'], ['free'], 20, 0).is_exhausted(number) for number in range(2)], [True, False])
        found = []
        for _ in range(170):
            found.append([self.chooser.is_exhausted(number) for number in range(3)])
            self.chooser.learn(self.trial(), Result([], 0, 0.5, True), 0)
        self.assertEqual([[one[number] for one in found].index(True) for number in range(2)], [40, 160])
        self.assertFalse(any(one[2] for one in found))
        self.chooser.learn(self.trial(), Result([], 0, 0.5, True), 0.1)
        for _ in range(100):
            self.assertFalse(self.chooser.is_exhausted(0))
            self.chooser.learn(self.trial(), Result([], 0, 0.5, True), 0)

    def test_again(self):
        """The same results lead to the same trials."""
        def trials():
            chooser, draw = Chooser(['a', 'b', 'c'], ['free', 'by cost'], 100, 0), random.Random(3)
            found = []
            for number in range(50):
                found.append(chooser.next(draw))
                chooser.learn(found[-1], Result([], number, 0.5, number % 3 == 0), (number % 5) / 100)
            return found
        self.assertEqual(trials(), trials())


if __name__ == '__main__':
    unittest.main()
