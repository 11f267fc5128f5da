"""How a search went: the growth of a certificate, and what it shows at which second."""
import os
import tempfile
import unittest

from nickelmouse.report.course import Course, course_in, solutions_of, thinned
from nickelmouse.report.growth import Growth

CERTIFICATE = b"""fzc 2
vars 2 cons 3
i 1 lin ; 2>=3
s 1 9
i 2 lin ; 2>=4 1<=0
r 2>=5 ; 1 2
r 12>=6 ; 1
s 1 7
r 2==6 ; 5
s 1 6
r ; 8
e closed
"""


class GrowthTest(unittest.TestCase):
    """When certificates had how many bytes."""

    def test_when(self):
        """A certificate that takes another's name has its own times."""
        clock = iter([9.0, 10.0, 10.5, 10.7, 13.0])
        with tempfile.TemporaryDirectory() as folder:
            model, other = (os.path.join(folder, name) for name in ('model.fzc', 'worker2.fzc'))
            growth = Growth(folder, lambda: next(clock))
            growth.look()
            self.assertEqual((growth.clock(), growth.seconds()), (0.0, 0.0))
            for path, text in ((os.path.join(folder, 'start.fzc'), b'abc'), (os.path.join(folder, 'model.fzn'), b'abc'), (model, b''), (model, b'abc'),
                               (model, b'abc'), (other, b'abcdef')):
                with open(path, 'wb') as file:
                    file.write(text)
                growth.look()
            times = growth.times_of(model)
            self.assertEqual([times(place) for place in (0, 1, 3, 4)], [1.0, 1.5, 1.5, 1.5])
            os.replace(other, model)
            self.assertEqual([growth.times_of(model)(place) for place in (0, 6, 7)], [4.0, 4.0, 4.0])
            self.assertEqual(growth.times_of(os.path.join(folder, 'model.fzn'))(1), 0.0)

    def test_thread(self):
        with tempfile.TemporaryDirectory() as folder:
            with open(os.path.join(folder, 'model.fzc'), 'wb') as file:
                file.write(b'abc')
            growth = Growth(folder)
            growth.start()
            growth.finish()
            self.assertEqual([marks[-1][1] for marks in growth.marks.values()], [3])


class CourseTest(unittest.TestCase):
    """Values and bounds over time."""

    def test_best(self):
        course = Course(True)
        for seconds, value in ((3, 5), (1, 9), (2, 9), (2, 8), (4, 6)):
            course.found(seconds, value)
        self.assertEqual(course.best(), [(1, 9), (2, 8), (3, 5)])

    def test_proved(self):
        """A bound past the best value holds of better solutions alone: what is proved is that none is better than the best value."""
        course = Course(False)
        for seconds, value in ((1, 3), (4, 7)):
            course.found(seconds, value)
        for seconds, value in ((0, 20), (2, 12), (3, 15), (5, 6)):
            course.bounded(seconds, value)
        self.assertEqual(course.proved(), [(0, 20), (2, 12), (5, 7)])
        course.declared = 19
        self.assertEqual(course.proved(), [(0, 19), (2, 12), (5, 7)])

    def test_thinned(self):
        pairs = [(second, 1000 - second) for second in range(1000)]
        self.assertEqual(thinned(pairs[:5], 5), pairs[:5])
        left = thinned(pairs, 50)
        self.assertEqual((len(left), left[0], left[-1]), (50, pairs[0], pairs[-1]))
        self.assertEqual(left, sorted(left))

    def test_certificate(self):
        with tempfile.NamedTemporaryFile() as file:
            file.write(CERTIFICATE)
            file.flush()
            course = course_in(file.name, 2, True, lambda place: CERTIFICATE.count(b'\n', 0, place))
            self.assertEqual(solutions_of(file.name), (3, (1, 6)))
        self.assertEqual(course.values, [(4, 9), (8, 7), (10, 6)])
        self.assertEqual(sorted(course.bounds), [(3, 3), (6, 5), (9, 6)])
        self.assertEqual(course.proved(), [(3, 3), (6, 5), (9, 6)])

    def test_certificate_without_solutions(self):
        with tempfile.NamedTemporaryFile() as file:
            file.write(b'fzc 2\nvars 0 cons 1\nr ;\ne closed\n')
            file.flush()
            self.assertEqual(solutions_of(file.name), (0, None))

    def test_certificate_without_variables(self):
        with tempfile.NamedTemporaryFile() as file:
            file.write(b'fzc 2\nvars 0 cons 0\ns\ne open\n')
            file.flush()
            self.assertEqual(solutions_of(file.name), (1, ()))
