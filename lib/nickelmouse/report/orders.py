"""Tasks that a model orders two by two, `a + 3 <= b \\/ b + 2 <= a`: rows of tasks of which one runs at a time, as the machines of a job
shop.

In a compiled file each half is a sum of two starts with a Boolean of its own, and a further constraint wants one of both. Which starts are
ordered `fzncheck --items` tells; how long a task lasts is asked of one such sum for each task (`asking.py`): what has to lie between it and
the next task of its row, and of the last task what has to lie between it and any other. A row whose sums say something else is left out."""
from dataclasses import dataclass

from nickelmouse.report.asking import Unknown
from nickelmouse.report.tasks import Cumulative, Task
from nickelmouse.running import Refused

SUM, EITHER = 'int_lin_le_reif', ('array_bool_or', 'bool_or', 'bool_clause')
# So many tasks are asked for, and so many pairs are looked at.
MOST, PAIRS = 200, 50_000


@dataclass(frozen=True)
class Row:
    """Constraints that order tasks two by two, all with all, and the tasks as those of a cumulative for one at a time."""
    constraints: tuple
    cumulative: Cumulative


def variables_in(items, constraint):
    """The numbers of the variables of a constraint, in order."""
    found = []
    for argument in constraint.arguments:
        found += [argument] if isinstance(argument, int) else items.arrays[argument].variables
    return found


def halves_of(items):
    """The sums of two starts, by the Boolean of each: the constraint and the starts."""
    halves = {}
    for constraint in items.stated():
        if constraint.name == SUM:
            numbers = variables_in(items, constraint)
            if len(numbers) == 3 and len(set(numbers)) == 3 and items.variable(numbers[2]).declared is None:
                halves[numbers[2]] = constraint, numbers[0], numbers[1]
    return halves


def pairs_of(items):
    """The pairs of starts that are ordered, the lesser first: the constraint that wants one of both halves, and the half by its first
    start."""
    halves, pairs = halves_of(items), {}
    for constraint in items.stated() if halves else ():
        numbers = variables_in(items, constraint) if constraint.name in EITHER else []
        both = [halves[number] for number in numbers if number in halves]
        if len(numbers) == len(both) == 2 and both[0][1:] == both[1][:0:-1]:
            pairs[tuple(sorted(both[0][1:]))] = constraint, {half[1]: half[0] for half in both}
    return pairs


def rows_of(pairs):
    """Sets of starts in which all are ordered with all, each pair in one of them: from the first start on, as many as go with those
    before."""
    others, left, rows = {}, dict.fromkeys(pairs), []
    for one, other in pairs:
        others.setdefault(one, {})[other] = others.setdefault(other, {})[one] = True
    while left:
        row = list(next(iter(left)))
        for start in others[row[0]]:
            if start not in row and all(start in others[member] for member in row):
                row.append(start)
        rows.append(sorted(row))
        for start in rows[-1]:
            for member in rows[-1]:
                left.pop((start, member), None)
    return rows


class Orders:
    """The rows of a file under a solution."""

    def __init__(self, asking, solution):
        self.asking, self.solution, self.rows, self.unknown = asking, solution, [], 0
        pairs = pairs_of(asking.items)
        rows = rows_of(pairs) if len(pairs) <= PAIRS else []
        asked = 0
        for row in rows:
            asked += len(row)
            if asked <= MOST:
                self.take(pairs, sorted(row, key=lambda start: solution[start - 1]))
            else:
                self.unknown += 1

    def take(self, pairs, row):
        """Takes a row of starts in the order of the solution."""
        halves = []
        for start, other in zip(row, [*row[1:], row[0]]):
            halves.append((pairs[tuple(sorted((start, other)))][1][start], start, other))
        try:
            durations = self.durations(halves)
        except (Unknown, Refused):
            self.unknown += 1
            return
        tasks = tuple(Task(start, self.solution[start - 1], duration, 1) for start, duration in zip(row, durations))
        if any(task.duration < 0 for task in tasks) or any(task.end > following.start for task, following in zip(tasks, tasks[1:])):
            self.unknown += 1
            return
        constraints = tuple(pair[0] for key, pair in pairs.items() if set(key) <= set(row))
        self.rows.append(Row(constraints, Cumulative(constraints[0], tasks, 1)))

    def durations(self, halves):
        """The least time from each start to the other that a half states. Unknown, where one states something else."""
        wanted = []
        for constraint, _, _ in halves:
            coefficients, starts, most = self.asking.arguments(constraint, 3)
            wanted += [(coefficients, 2), (starts, 2), (b'[' + most + b']', 1)]
        found = self.asking.lists(wanted)
        durations = []
        for (_, start, other), coefficients, starts, most in zip(halves, found[::3], found[1::3], found[2::3]):
            if dict(zip(starts.entries, coefficients.constants)) != {start: 1, other: -1} or most.constants[0] is None:
                raise Unknown
            durations.append(-most.constants[0])
        return durations


def common_indices(rows, names):
    """Of each row the values of the loops' indices that all its constraints have in common, as text."""
    for row in rows:
        lists = [names.constraint(constraint)[2].split(', ') for constraint in row.constraints]
        yield ', '.join(index for index in lists[0] if index and all(index in others for others in lists))
