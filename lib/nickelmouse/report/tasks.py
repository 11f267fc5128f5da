"""The cumulatives and the circuits of a file under a solution: tasks with their starts, durations and uses, the capacity, tours."""
from dataclasses import dataclass

from nickelmouse.report.asking import Unknown
from nickelmouse.running import Refused

CUMULATIVE, CIRCUIT = 'fzn_cumulative', 'fzn_circuit'


@dataclass(frozen=True)
class Task:
    """A task: the number of the variable that is its start, or nothing; when it starts, how long it lasts, and what it uses meanwhile."""
    variable: int
    start: int
    duration: int
    use: int

    @property
    def end(self):
        """The moment behind its last one."""
        return self.start + self.duration


@dataclass(frozen=True)
class Cumulative:
    """The tasks of a cumulative, and its capacity."""
    constraint: object
    tasks: tuple
    capacity: int

    @property
    def working(self):
        """The tasks that last and use something."""
        return [task for task in self.tasks if task.duration > 0 and task.use > 0]

    def is_one_at_a_time(self):
        """Whether any two of its tasks use more than there is, so that they have to stand one behind the other."""
        least = sorted(task.use for task in self.working)[:2]
        return len(least) < 2 or sum(least) > self.capacity

    def load(self):
        """What the tasks use together: pairs of a moment and the use from then on, as far as it changes."""
        changes = {}
        for task in self.working:
            changes[task.start] = changes.get(task.start, 0) + task.use
            changes[task.end] = changes.get(task.end, 0) - task.use
        steps, use = [], 0
        for moment in sorted(changes):
            use += changes[moment]
            if not steps or steps[-1][1] != use:
                steps.append((moment, use))
        return steps


@dataclass(frozen=True)
class Tour:
    """A circuit: the places from 1 on in the order in which they are visited."""
    constraint: object
    places: tuple


def tour_of(successors):
    """The places that are visited from place 1 on, back to it."""
    places, place = [], 1
    while place not in places[:1] and len(places) < len(successors):
        places.append(place)
        place = successors[place - 1]
    return tuple(places)


class Known:
    """What is known of a file's cumulatives and circuits under a solution; of some constraints nothing is known, and these are counted."""

    def __init__(self, asking, solution, most):
        self.asking, self.solution, self.unknown, self.passed_over = asking, solution, 0, 0
        self.cumulatives, self.tours = [], []
        wanted = [one for one in asking.items.stated() if one.name in (CUMULATIVE, CIRCUIT)]
        self.passed_over = max(0, len(wanted) - most)
        self.take(wanted[:most])

    def take(self, constraints):
        """Asks for the arguments of constraints, then for the lists of all of them at once."""
        asked, wanted = [], []
        for constraint in constraints:
            lists = self.lists_of(constraint)
            if lists is None:
                self.unknown += 1
                continue
            asked.append((constraint, len(wanted), len(lists)))
            wanted += lists
        try:
            found = self.asking.lists(wanted) if wanted else []
        except Refused:
            self.unknown += len(asked)
            return
        for constraint, place, count in asked:
            self.keep(constraint, found[place:place + count])

    def lists_of(self, constraint):
        """The arguments of a constraint as lists with their lengths, or nothing."""
        try:
            if constraint.name == CIRCUIT:
                argument, = self.asking.arguments(constraint, 1)
                return [(argument, self.asking.length([argument]))]
            *lists, capacity = self.asking.arguments(constraint, 4)
            length = self.asking.length(lists)
            return [(argument, length) for argument in lists] + [(b'[' + capacity + b']', 1)]
        except (Unknown, Refused):
            return None

    def keep(self, constraint, lists):
        """Keeps what the lists of a constraint say."""
        values = [one.values(self.solution) for one in lists]
        if constraint.name == CIRCUIT:
            self.tours.append(Tour(constraint, tour_of(values[0])))
            return
        tasks = tuple(map(Task, lists[0].entries, *values[:3]))
        self.cumulatives.append(Cumulative(constraint, tasks, values[3][0]))
