"""Kinds of neighbourhoods: how many units they choose, and which."""
import random
import unittest

from nickelmouse.kinds import View, kinds_for, tour_of
from nickelmouse.structure import Structure, Term


def structure(units, scopes=(), terms=(), circuits=()):
    """A structure whose units are the first variables."""
    found = Structure(list(range(1, units + 1)), scopes=list(scopes), terms=list(terms), circuits=list(circuits))
    found.at = [[number for number, scope in enumerate(found.scopes) if place in scope] for place in range(units)]
    return found


class KindsTest(unittest.TestCase):
    """Every kind on small structures."""

    def test_how_many(self):
        """As many as are wanted, or a few more where what belongs together is freed at once; never one that is not there."""
        draw = random.Random(1)
        whole = structure(12, [(0, 1, 2), (3, 4, 5), (2, 3), (6, 7, 8, 9, 10, 11)], [Term(13, 0, (0, 1)), Term(14, 0, (5,)), Term(15, 0, (7, 8))],
                          [list(range(12))])
        bare = structure(12)
        for one, names in ((whole, {'random', 'walk', 'whole', 'window', 'stretch', 'costly', 'costly walk', 'tour'}),
                           (bare, {'random', 'window', 'stretch'})):
            kinds = kinds_for(one)
            self.assertEqual(set(kinds), names)
            values = tuple(draw.sample(range(1, 13), 12)) + (3, 0, 5)
            for name, kind in kinds.items():
                for wanted in range(2, 13):
                    free = kind(View(one, values), wanted, draw)
                    self.assertTrue(free <= set(range(12)), name)
                    self.assertTrue(wanted <= len(free) <= wanted + 6, f'{name}: {len(free)} of {wanted}')

    def test_costly(self):
        """What costs nothing is not chosen while something does."""
        view = View(structure(4, terms=[Term(5, 0, (0,)), Term(6, 2, (1,)), Term(7, 0, (2,))]), (0, 0, 0, 0, 3, 2, 9))
        chosen = [kinds_for(view.structure)['costly'](view, 2, random.Random(seed)) for seed in range(50)]
        self.assertEqual(set(map(frozenset, chosen)), {frozenset({0, 2})})

    def test_window(self):
        view = View(structure(5), (50, 10, 40, 20, 30))
        chosen = {frozenset(kinds_for(view.structure)['window'](view, 2, random.Random(seed))) for seed in range(50)}
        self.assertEqual(chosen, {frozenset({1, 3}), frozenset({3, 4}), frozenset({4, 2}), frozenset({2, 0})})

    def test_walk(self):
        """From unit to unit by constraints, as far as these lead."""
        view = View(structure(6, [(0, 1), (1, 2), (3, 4)]), (0,) * 6)
        chosen = [frozenset(kinds_for(view.structure)['walk'](view, 2, random.Random(seed))) for seed in range(200)]
        near = [pair for pair in chosen if pair in map(frozenset, view.structure.scopes)]
        self.assertEqual(len(set(near)), 3)
        self.assertGreater(len(near), 120)

    def test_tour(self):
        successors = {10: 3, 11: 1, 12: 2, 13: 9}
        self.assertEqual(tour_of([10, 11, 12], successors.get), [10, 12, 11])
        self.assertEqual(tour_of([10, 11, None], successors.get), [10, None])
        self.assertEqual(tour_of([13, 11], successors.get), [13])


if __name__ == '__main__':
    unittest.main()
