"""What a page is about: the model and its compiled file, the answer, the last solution, how the search went."""
import os
import re
import tempfile

from nickelmouse.bound import name_in_the_model
from nickelmouse.counts import printed_items
from nickelmouse.items import parsed
from nickelmouse.kept import BOUND_CERTIFICATE, PRINTED
from nickelmouse.report.asking import Asking
from nickelmouse.report.course import course_in, hinted_in, solutions_of
from nickelmouse.report.growth import HINTS
from nickelmouse.report.naming import Names
from nickelmouse.report.orders import Orders
from nickelmouse.report.reader import Reader
from nickelmouse.report.tasks import Known

# So many cumulatives and circuits are asked for, and so many characters of an answer are shown.
ASKED, SHOWN = 60, 200_000
# The bound in the line that tells how good an answer can be.
BOUND = re.compile(r'(?:at least|at most) (-?\d+)')


def bound_of(declared, is_minimized):
    """The end of a declared set that no value of the objective is better than; nothing, where no value is listed."""
    numbers = [int(word) for word in declared.strip('{}').replace('..', ',').split(',') if word]
    return (min if is_minimized else max)(numbers, default=None)


class State:
    """An answer that was checked, over the folder of its run."""

    def __init__(self, programs, files, growth, pairs, lines):
        self.programs, self.files, self.growth = programs, files, growth
        self.items = parsed(printed_items(programs.check, files.path('model.fzn')))
        self.table = files.read('model.paths')
        self.names = Names(self.items, self.table.decode('utf-8', 'replace'))
        self.certificate = files.path('model.fzc')
        self.solutions, self.solution = solutions_of(self.certificate)
        self.course = self.course_with(*pairs, BOUND.findall('\n'.join(lines[:-1])))

    @property
    def goal(self):
        """The number of the objective, or nothing."""
        return self.items.goal.variable

    def objective(self):
        """What the objective is called."""
        return name_in_the_model(self.items.variable(self.goal).name, self.table)

    def answer(self):
        """The answer as it was printed; a long one to some length, and whether that is all of it."""
        printed = PRINTED if os.path.exists(self.files.path(PRINTED)) else 'model.answer'
        text = self.files.read(printed).decode('utf-8', 'replace')
        return text[:SHOWN], len(text) <= SHOWN

    def course_with(self, values, bounds, last):
        """How the search went, with what other workers have told and the last bounds that were printed; or nothing, where there is no
        objective."""
        if self.goal is None:
            return None
        is_minimized = self.items.goal.word == 'minimize'
        course = course_in(self.certificate, self.goal, is_minimized, self.growth.times_of(self.certificate))
        course.seconds = self.growth.seconds()
        course.declared = bound_of(self.items.variable(self.goal).declared, is_minimized)
        if self.is_closed() and course.values:
            course.bounded(course.seconds, course.values[-1][1])
        self.take_others(course)
        for seconds, value in values:
            course.found(seconds, value)
        for seconds, value in [*bounds, *((course.seconds, int(number)) for number in last)]:
            course.bounded(seconds, value)
        return course

    def take_others(self, course):
        """Takes what other workers have found: from the certificate of the bound, and from the hints, which nobody has checked, what is no
        better than the answer."""
        bound, hints = self.files.path(BOUND_CERTIFICATE), self.files.path(HINTS)
        if os.path.exists(bound):
            course.bounds += course_in(bound, self.goal, course.is_minimized, self.growth.times_of(bound)).bounds
        if os.path.exists(hints) and course.values:
            last = course.values[-1][1]
            course.values += [pair for pair in hinted_in(hints, self.goal, self.growth.times_of(hints)) if not course.better(pair[1], last)]

    def is_closed(self):
        """Whether nothing is left to be found."""
        with open(self.certificate, 'rb') as file:
            file.seek(-min(20, file.seek(0, 2)), 2)
            return file.read().endswith(b'\ne closed\n')

    def known(self):
        """The cumulatives and circuits under the last solution, and where there is no cumulative the tasks that are ordered two by two;
        nothing of both where there is no solution."""
        if self.solution is None:
            return None, None
        with tempfile.TemporaryDirectory() as folder, Reader(self.programs.check, folder) as reader:
            asking = Asking(self.programs, reader, self.files.read('model.fzn'), self.items, folder)
            known = Known(asking, self.solution, ASKED)
            return known, None if known.cumulatives or known.unknown else Orders(asking, self.solution)
