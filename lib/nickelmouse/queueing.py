"""The queue of open cubes: which is searched next, and with what budget of decisions."""
import heapq
import itertools

from nickelmouse.cubes import Cube

MOST = 10_000_000
FAILURES = 3
# So many open cubes for each slot are enough; while there are fewer, a cube gets no more than its parent.
FOR_EACH_SLOT = 2


class Queue:
    """The open cubes that nobody searches: those of the fewest bounds first, and of equals the oldest. `budget` is that of the first."""

    def __init__(self, budget):
        self.root = Cube()
        self.root.budget = budget
        self.heap, self.numbers = [], itertools.count()
        self.add(self.root)

    def add(self, *cubes):
        """Takes cubes."""
        for cube in cubes:
            heapq.heappush(self.heap, (cube.depth, next(self.numbers), cube))

    def next(self):
        """The cube that is searched next; nothing, where there is none."""
        while self.heap:
            cube = heapq.heappop(self.heap)[-1]
            if not cube.is_over():
                return cube
        return None

    def __len__(self):
        return sum(not cube.is_over() for _, _, cube in self.heap)

    def give(self, cube, slots, going, left=None):
        """Gives a cube its budget: as much as its parent had while open cubes are scarce for so many slots, of which others are `going`,
        and twice as much from then on; never more than is left of all."""
        if cube.budget is None:
            cube.budget = min(MOST, cube.parent.budget * (1 if len(self.heap) + going < FOR_EACH_SLOT * slots else 2))
        return cube.budget if left is None else min(cube.budget, left)
