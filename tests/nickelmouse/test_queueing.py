"""The queue of open cubes."""
import unittest

from nickelmouse.cubes import Closing, Literal
from nickelmouse.queueing import MOST, Queue


class QueueingTest(unittest.TestCase):
    """Order and budgets."""

    def test_order(self):
        queue = Queue(100)
        root = queue.next()
        self.assertIs(root, queue.root)
        left, right = root.split(Literal(1, '<=', 5))
        queue.add(*left.split(Literal(2, '<=', 5)))
        queue.add(right)
        self.assertEqual(len(queue), 3)
        self.assertIs(queue.next(), right)
        self.assertIs(queue.next(), left.halves[0])
        left.closed = Closing(1, 0)
        self.assertEqual((len(queue), queue.next()), (0, None))

    def test_budgets(self):
        """A cube gets as much as its parent while open cubes are scarce, and twice as much from then on, as far as there is some left."""
        queue = Queue(100)
        root = queue.next()
        left, right = root.split(Literal(1, '<=', 5))
        self.assertEqual(queue.give(root, 4, 0), 100)
        queue.add(right)
        self.assertEqual(queue.give(left, 4, 2), 100)
        self.assertEqual(queue.give(right, 2, 3), 200)
        self.assertEqual(queue.give(right, 9, 0), 200)
        self.assertEqual(queue.give(right, 9, 0, 150), 150)
        left.budget = MOST
        self.assertEqual(queue.give(left.split(Literal(2, '<=', 5))[0], 0, 0), MOST)
