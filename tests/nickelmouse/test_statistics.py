"""Statistics: what fznsolve tells, in MiniZinc's words."""
import unittest

from nickelmouse.bound import Bound
from nickelmouse.statistics import nodes_in, statistics_in, without_progress

TOLD = """1.0 s, 6982 nodes, 6323 conflicts, 59892 inferences, 32 solutions, best 143, 5716551 bytes of certificate
in all 1.1 s, 7662 nodes, 6991 conflicts, 65597 inferences, 33 solutions, best -3, 6318217 bytes of certificate
"""


class StatisticsTest(unittest.TestCase):
    """The last line that was told."""

    def test_optimisation(self):
        self.assertEqual(statistics_in(TOLD).splitlines(), [
            '%%%mzn-stat: solveTime=1.1', '%%%mzn-stat: nodes=7662', '%%%mzn-stat: failures=6991', '%%%mzn-stat: propagations=65597',
            '%%%mzn-stat: nSolutions=33', '%%%mzn-stat: objective=-3', '%%%mzn-stat: certificateBytes=6318217', '%%%mzn-stat-end'])

    def test_satisfaction(self):
        lines = statistics_in('in all 0.0 s, 1 nodes, 0 conflicts, 2 inferences, 1 solutions, 39 bytes of certificate\n').splitlines()
        self.assertEqual(lines[-3:], ['%%%mzn-stat: nSolutions=1', '%%%mzn-stat: certificateBytes=39', '%%%mzn-stat-end'])

    def test_nothing(self):
        self.assertEqual(statistics_in(''), '%%%mzn-stat-end\n')

    def test_bound(self):
        self.assertEqual(statistics_in('', Bound('x', 4, 'at least', 3)), '%%%mzn-stat: objectiveBound=3\n%%%mzn-stat-end\n')

    def test_another_value(self):
        """The value of the answer, where another worker has found it; how many decisions were made."""
        self.assertIn('%%%mzn-stat: objective=-5\n', statistics_in(TOLD, None, -5))
        self.assertEqual(statistics_in('', None, -5), '%%%mzn-stat-end\n')
        self.assertEqual((nodes_in(TOLD), nodes_in('')), (7662, None))

    def test_beside(self):
        self.assertEqual(without_progress(TOLD + 'fault 19 Memory\n'), 'fault 19 Memory')


if __name__ == '__main__':
    unittest.main()
